//! Random lines of the listing's input, and random scripts, from a seed, with the edges favoured.
use crate::calls::{Asked, Calls};
use crate::words::{self, WORDS};
use crate::{ram, readings};

pub struct Random(u64);

impl Random {
    pub fn new(seed: u64) -> Self {
        Self(seed)
    }

    /// SplitMix64.
    fn next(&mut self) -> u64 {
        self.0 = self.0.wrapping_add(0x9E37_79B9_7F4A_7C15);
        let mut mixed = self.0;
        mixed = (mixed ^ (mixed >> 30)).wrapping_mul(0xBF58_476D_1CE4_E5B9);
        mixed = (mixed ^ (mixed >> 27)).wrapping_mul(0x94D0_49BB_1331_11EB);
        mixed ^ (mixed >> 31)
    }

    /// Below `limit`.
    fn below(&mut self, limit: usize) -> usize {
        (self.next() % limit as u64) as usize
    }

    fn one_in(&mut self, count: usize) -> bool {
        self.below(count) == 0
    }

    fn one_of(&mut self, choice: &[usize]) -> usize {
        choice[self.below(choice.len())]
    }
}

/// An aligned place of `length` bytes in RAM, its ends favoured.
fn place(random: &mut Random, length: usize) -> usize {
    let last = (ram::END - length.min(ram::END - ram::START)) & !3;
    let span = (last - ram::START) / 4 + 1;
    match random.below(8) {
        0 => ram::START,
        1 => last,
        2 => ram::START + 4 * random.below(span.min(200)),
        _ => ram::START + 4 * random.below(span),
    }
}

/// Line number `at`; every second one goes through all packet sizes in turn.
pub fn line(random: &mut Random, at: usize) -> String {
    let room = ram::END - ram::START;
    let incoming = random.one_in(2);
    let size = if at % 2 == 0 {
        at / 2 % 1024 + 1
    } else {
        random.one_of(&[1, 2, 3, 4, 5, 7, 8, 9, 63, 64, 65, 255, 256, 511, 512, 513, 1023, 1024, 1024, 1024])
    };
    // Packets: few, or about a whole number of chains, or anything up to some chains.
    let mut packets = match random.below(8) {
        0..=2 => random.below(4),
        3..=5 => {
            let chains = if random.one_in(60) { random.below(40) } else { random.below(5) };
            (255 * chains + random.below(5)).saturating_sub(2)
        }
        6 => random.below(1100),
        _ if random.one_in(40) => room / size,
        _ => random.below(300),
    };
    packets = packets.min(room / size);
    let mut length = packets * size;
    if incoming {
        length = match random.below(4) {
            0 => length,
            1 => length + random.below(size + 1),
            2 => length + 1,
            _ => length.saturating_sub(1),
        };
    } else if packets == 0 && !random.one_in(10) {
        length = size;
    }
    length = if incoming { length.min(room) } else { length.min(room / size * size) };
    let mut own = place(random, size);
    let mut address = if random.one_in(20) { own } else { place(random, length) };
    let mut endpoint = 1 + random.below(7);
    // Some lines that have to be refused.
    if random.one_in(25) {
        match random.below(8) {
            0 => endpoint = random.one_of(&[0, 8, 9, 15]),
            1 => own += 1 + random.below(3),
            2 => own = random.one_of(&[0, ram::START - 4, ram::END, ram::END - size / 2 / 4 * 4]),
            3 => address += 1 + random.below(3),
            4 => address = random.one_of(&[0, ram::START - 4, ram::END, ram::END + 4]),
            5 => address = ram::END - length / 2 / 4 * 4,
            6 => length += 1,
            _ => length = random.one_of(&[0, room, room + 1]),
        }
    }
    let direction = if incoming { "in" } else { "out" };
    let flag = random.below(2);
    format!("{direction}\t{endpoint}\t{size}\t{own}\t{address}\t{length}\t{flag}")
}

/// Which parts a script has beside transfers, orders, power and events: a sum of the numbers below.
#[derive(Clone, Copy)]
pub struct Parts(pub u64);

impl Parts {
    /// Interrupts by their readings.
    const INTERRUPTS: u64 = 1;
    /// The calls of EP0.
    const CONTROL: u64 = 2;
    /// Sends and receives.
    const MOVES: u64 = 4;
    /// The host woken.
    const WAKEUP: u64 = 8;
    pub const ALL: Self = Self(15);

    fn has(self, part: u64) -> bool {
        self.0 & part != 0
    }

    /// Whether a script has this word.
    fn word(self, word: &str) -> bool {
        match word {
            "wakeup" => self.has(Self::WAKEUP),
            "move" | "next" => self.has(Self::MOVES),
            "setup" | "data_out" | "take_out" | "data_in" | "accept" | "accept_address" | "take_in" | "reject"
            | "generation" => self.has(Self::CONTROL),
            "interrupt" => self.has(Self::INTERRUPTS),
            _ if readings::words().contains(&word) => self.has(Self::INTERRUPTS),
            _ => true,
        }
    }
}

/// A line that can't be read, where it has numbers for one reason alone.
fn unfit(random: &mut Random, parts: Parts) -> Vec<u8> {
    let (word, largest) = loop {
        let found = WORDS[random.below(WORDS.len())];
        if parts.word(found.0) {
            break found;
        }
    };
    let some = |random: &mut Random| random.one_of(&[0, 0, 1, 1, 2, 3, 7, 64, 512, ram::START, u32::MAX as usize]);
    let numbers: Vec<usize> = largest.iter().map(|most| some(random).min(*most as usize)).collect();
    let fit = joined(word, &numbers);
    let unread = |random: &mut Random, texts: &[&[u8]]| {
        let mut parts: Vec<&[u8]> = fit.as_bytes().split(|byte| *byte == b'\t').collect();
        let text = texts[random.below(texts.len())];
        match parts.len() {
            1 => parts.push(text),
            some => parts[1 + random.below(some - 1)] = text,
        }
        parts.join(&b'\t')
    };
    let line: Vec<u8> = match random.below(14) {
        0 => Vec::new(),
        1 => {
            let words = ["", "Begin", "begins", "tak", "takes", "0", "unfit", "answer", "device", " state", "state "];
            joined(words[random.below(words.len())], &numbers).into()
        }
        2 => [fit.as_bytes(), b"\r"].concat(),
        3 => unread(
            random,
            &[b"+1", b"-1", b"0x10", b"1.0", b" 1", b"1 ", b"1_0", b"1e3", b"one", b"1:", b"/", b"1\x00"],
        ),
        4 => unread(random, &[b"4294967296", b"4294967808", b"004294967296", b"18446744073709551617"]),
        5 => unread(random, &[&[b'9'; 300], &[b'1'; 21], b"99999999999"]),
        6 => joined(&fit, &vec![some(random); 1 + random.below(12)]).into(),
        7 => [fit.as_bytes(), b"\t"].concat(),
        8 => unread(random, &[b""]),
        9 => {
            // Too long by its zeros alone, or by what nobody reads.
            let long = 4096 + random.one_of(&[0, 0, 1, 700]);
            match fit.split_once('\t') {
                Some((word, rest)) => format!("{word}\t{}{rest}", "0".repeat(long - fit.len())).into(),
                None => vec![b'x'; long],
            }
        }
        10 => unread(random, &[b"\xff", b"1\x80", b"\xc2\xb2", b"\xe2\x82\x81"]),
        11 => [&b"\xc3\xa9"[..], fit.as_bytes()].concat(),
        12 if parts.has(Parts::MOVES) && random.one_in(2) => {
            let (word, count) = [("move", 7), ("next", 8)][random.below(2)];
            let mut numbers = vec![1, 1, 0, ram::START, 0, 0, 1, 0];
            numbers.truncate(count);
            let most = words::LENT as usize;
            numbers[4] = random.one_of(&[most + 1, most + 2, 2 * most, 1 << 31, u32::MAX as usize]);
            joined(word, &numbers).into()
        }
        12 => {
            let most = [1, 1, 1, 15, 3, 65535, 255, 255, 65535, 255];
            let mut numbers = most.map(|most| random.below(most + 1));
            let at = 3 + random.below(7);
            numbers[at] = random.one_of(&[most[at] + 1, most[at] + 2, 65536, 65537, u32::MAX as usize]);
            joined("allocate", &numbers).into()
        }
        _ => joined("start", &[random.one_of(&[65536, 65536 + 512, 1 << 31, u32::MAX as usize])]).into(),
    };
    assert!(words::read(&line).is_none(), "it can be read: {}", line.escape_ascii());
    line
}

/// Another line for the same call; rarely one that leaves out numbers that aren't 0, where that is
/// a call too.
fn otherwise(random: &mut Random, line: String) -> String {
    let mut parts: Vec<String> = line.split('\t').map(str::to_string).collect();
    let least = match &parts[0][..] {
        "allocate" | "on" | "enable" | "stall" | "stalled" | "raise" | "begin" | "take" | "abandon" => 1,
        "report" => 3,
        _ => usize::MAX,
    };
    if parts.len() > least && random.one_in(150) {
        parts.truncate(least + random.below(parts.len() - least));
    }
    if random.one_in(20) {
        while parts.len() > 1 && parts[parts.len() - 1] == "0" {
            parts.pop();
        }
    }
    // Any number but 0 is a set flag.
    if parts.len() > 1 && least < 4 && !["on", "raise"].contains(&&parts[0][..]) && parts[1] == "1" && random.one_in(50)
    {
        parts[1] = random.one_of(&[2, 3, 255, 256, 65536, 1 << 31, u32::MAX as usize]).to_string();
    }
    if parts.len() > 1 && random.one_in(50) {
        // Now and then as long as a line may be.
        let room = 4095 - parts.join("\t").len();
        let zeros = if random.one_in(30) { room } else { 1 + random.below(12) };
        let at = 1 + random.below(parts.len() - 1);
        parts[at].insert_str(0, &"0".repeat(zeros));
    }
    parts.join("\t")
}

/// A script in the making. The Rust runs each line at once, so that generations, places and the
/// readings awaited are known.
struct Script {
    calls: Calls,
    lines: Vec<Vec<u8>>,
    /// Where the driver's memory lies.
    memory: (usize, usize),
    parts: Parts,
    /// For lines that can't be read, and for the writing of those that can.
    slips: Random,
}

impl Script {
    /// A line of a part that the script hasn't is left out.
    fn push(&mut self, line: String) {
        if !self.parts.word(line.split('\t').next().unwrap()) {
            return;
        }
        if self.slips.one_in(200) {
            let unfit = unfit(&mut self.slips, self.parts);
            self.run(unfit);
        }
        let line = otherwise(&mut self.slips, line);
        self.run(line.into());
    }

    fn run(&mut self, line: Vec<u8>) {
        self.calls.call(&line);
        self.lines.push(line);
    }
}

/// Calls on one driver after another. Call once in a program, with RAM mapped.
pub fn calls(random: &mut Random, count: usize, parts: Parts) -> Vec<Vec<u8>> {
    let slips = Random::new(random.next());
    let mut script = Script { calls: Calls::default(), lines: Vec::new(), memory: (0, 0), parts, slips };
    while script.lines.len() < count {
        let some = 20 + random.below(400);
        life(random, some, &mut script);
    }
    script.lines
}

/// Calls while nothing is started: all is refused, or nothing to be done.
fn unstarted(random: &mut Random, script: &mut Script) {
    for _ in 0..random.below(4) {
        let (incoming, endpoint) = (random.below(2), 1 + random.below(8));
        script.push(match random.below(10) {
            8 => joined("move", &[incoming, endpoint, 0, ram::FIRST, random.below(3), random.below(2), 7]),
            9 => joined("next", &[incoming, endpoint, 0, ram::FIRST, random.below(3), random.below(2), 7, 0]),
            // Later the Rust has no bus to ask.
            0 | 1 if script.calls.control().0 == 0 => joined("on", &[random.below(18)]),
            2 => joined("begin", &[incoming, endpoint, place(random, 64), 64, 0]),
            3 => joined("abandon", &[incoming, endpoint]),
            4 => joined("enabled", &[incoming, endpoint]),
            5 => joined("raise", &[an_event(random)]),
            6 => "state".into(),
            7 if script.parts.has(Parts::WAKEUP) && script.calls.control().0 == 0 => "wakeup".into(),
            _ => joined("take", &[incoming, endpoint]),
        });
    }
}

/// Mostly one of the four.
fn an_event(random: &mut Random) -> usize {
    if random.one_in(12) {
        random.one_of(&[0, 3, 5, 10, 16, 255, 257, 1 << 31, u32::MAX as usize])
    } else {
        random.one_of(&[1, 2, 4, 8])
    }
}

/// A driver that has to be refused.
fn refused_driver(random: &mut Random) -> String {
    let (start, end, most) = (ram::START, ram::END, u32::MAX as usize);
    let places = [(0, 0), (0, most), (start - 4, 516), (start - 1, 600), (end, 512), (end - 508, 512), (most, most)];
    let short = [(start, 511), (start, 0), (start + 1, 514), (start + 3, 512), (end - 1, 1), (end - 511, 511)];
    let (memory, capacity) =
        if random.one_in(2) { places[random.below(places.len())] } else { short[random.below(short.len())] };
    joined("driver", &[memory, capacity])
}

fn flag(random: &mut Random, one_in: usize) -> usize {
    random.one_in(one_in).into()
}

fn joined(word: &str, numbers: &[usize]) -> String {
    numbers.iter().fold(word.to_string(), |line, number| format!("{line}\t{number}"))
}

/// A reading of this kind; sometimes one that is out of range.
fn a_reading(random: &mut Random, word: &str, asked: &[usize], quiet: bool, size: usize) -> String {
    let numbers = match word {
        "link_flags" if quiet => vec![0; 7],
        "link_flags" => {
            let mut flags: Vec<usize> = (0..7).map(|_| flag(random, 5)).collect();
            flags[random.below(7)] = 1;
            // A timeout ends all, so it is rare.
            flags[2] &= flag(random, 3);
            flags
        }
        "link_status" => {
            let state = random.one_of(&[0, 1, 2, 3, 4, 4, 4, 5, 6, 7, 7, 8, 9, 4_000_000_000]);
            vec![state, flag(random, 2), flag(random, 3)]
        }
        "port_capability" => vec![random.below(2)],
        "message_word" => {
            let word = random.below(1 << 32);
            // Type 0 and each subtype are favoured.
            let subtype = if random.one_in(3) { random.below(16) } else { random.one_of(&[1, 1, 2, 4, 5, 6]) };
            vec![if random.one_in(4) { word } else { word & !0x1ff | subtype << 5 }]
        }
        "transfer_status" => {
            let mut numbers: Vec<usize> = (0..9).map(|_| flag(random, 3)).collect();
            let what = random.below(16);
            numbers[0] = (what < 3).into();
            numbers[1] = (what == 2 || what == 3 || what == 4).into();
            numbers[2] = (what != 5 && what != 6).into();
            numbers[3] = match random.below(20) {
                0 => random.one_of(&[8, 9, 15, 16, 4_000_000_000]),
                1 => 1 + random.below(7),
                2..=6 => 0,
                _ if asked.is_empty() => 0,
                _ => {
                    let slot = random.one_of(asked);
                    numbers[4] = slot % 2;
                    slot / 2
                }
            };
            numbers
        }
        "setup_bytes" => (0..8).map(|_| random.below(256)).collect(),
        "ep0_length" => vec![random.one_of(&[0, 1, 8, 18, 63, 64, 500, 511, 512, 512, 513])],
        "ep0_sequence" => vec![random.one_of(&[0, 1, 2, 15, 30, 31, 31, 32])],
        "chain_packets" => vec![random.one_of(&[0, 1, 1, 2, 3, 4, 16, 254, 255, 255, 256])],
        "last_length" => {
            vec![random.one_of(&[0, 1, size - 1, size, size, size, size, size, size + 1, 1024, 65535, 65536])]
        }
        _ => panic!("no such reading"),
    };
    joined(word, &numbers)
}

/// An interrupt to its end, with other calls and other readings between.
fn conversation(random: &mut Random, asked: &[usize], sizes: &[usize; 16], script: &mut Script) {
    script.push("interrupt".into());
    let quiet = !random.one_in(3);
    let mut size = 64;
    while let Some(awaited) = script.calls.awaited() {
        let line = match random.below(30) {
            0 => {
                let word = random.one_of(&[0, 1, 2, 3, 4, 5, 6, 7, 8, 9]);
                a_reading(random, readings::words()[word], asked, quiet, size)
            }
            1 => {
                let generation = script.calls.control().1;
                let calls = [
                    "interrupt".into(),
                    "setup".into(),
                    "wakeup".into(),
                    "off".into(),
                    "on\t3".into(),
                    "on\t16".into(),
                    "stalled\t1\t1".into(),
                    "begin\t1\t0\t0\t0\t0".into(),
                    "take\t1\t1".into(),
                    "abandon\t1\t1".into(),
                    "enable\t1\t1\t0".into(),
                    "stall\t0\t1\t1".into(),
                    "report\t0\t1\t1\t1".into(),
                    format!("move\t1\t1\t0\t{}\t8\t0\t1", ram::FIRST),
                    format!("move\t0\t1\t0\t{}\t8\t0\t1", ram::FIRST),
                    format!("next\t1\t1\t0\t{}\t8\t0\t1\t0", ram::FIRST),
                    format!("next\t0\t8\t0\t{}\t8\t0\t1\t0", ram::FIRST),
                    format!("accept\t{generation}"),
                    format!("reject\t{generation}"),
                    format!("take_in\t{generation}"),
                    format!("accept_address\t{generation}\t5"),
                    format!("data_out\t{generation}\t{}\t8", ram::FIRST),
                    format!("take_out\t{generation}\t{}\t8\t1", ram::FIRST),
                    format!("data_in\t{generation}\t{}\t8\t1\t0\t1", ram::FIRST),
                    "state".into(),
                ];
                calls[random.below(calls.len())].clone()
            }
            2 => "state".into(),
            _ => a_reading(random, awaited, asked, quiet, size),
        };
        if let Some(endpoint) = line.strip_prefix("transfer_status").and_then(|rest| rest.split('\t').nth(4)) {
            size = sizes.get(2 * endpoint.parse::<usize>().unwrap()).map_or(64, |size| (*size).max(1));
        }
        script.push(line);
    }
    if random.one_in(3) {
        script.push("poll".into());
    }
    // A reset leaves all endpoints disabled.
    if script.calls.powered() && !asked.iter().any(|slot| script.calls.ready(*slot)) {
        for slot in asked {
            if !random.one_in(4) {
                script.push(format!("enable\t{}\t{}\t1", slot % 2, slot / 2));
            }
        }
    }
}

/// The link goes from state to state, each told by an interrupt of its own, so that suspend, resume
/// and what the first U0 means come after each other.
fn link_walk(random: &mut Random, script: &mut Script) {
    for _ in 0..2 + random.below(6) {
        // Lost terminations alone, a change of state alone, or both.
        let (changed, lost) = [(1, 0), (1, 0), (1, 0), (0, 1), (1, 1)][random.below(5)];
        let state = random.one_of(&[1, 2, 2, 4, 4, 4, 5, 6, 7, 7, 7]);
        script.push("interrupt".into());
        while let Some(awaited) = script.calls.awaited() {
            script.push(match awaited {
                "link_flags" => joined(awaited, &[0, 0, 0, changed, 0, lost, 0]),
                "link_status" => joined(awaited, &[state, flag(random, 4), 0]),
                _ => a_reading(random, awaited, &[], true, 64),
            });
        }
        match random.below(8) {
            0..=3 => script.push("poll".into()),
            4 => script.push("wakeup".into()),
            5 => script.push("state".into()),
            6 if script.calls.powered() && random.one_in(3) => {
                script.push("off".into());
                script.push("wakeup".into());
            }
            _ => {}
        }
    }
}

/// Orders on one slot after each other, and what they left; at the end it is mostly fit.
fn orders(random: &mut Random, incoming: usize, endpoint: usize, script: &mut Script) {
    for _ in 0..1 + random.below(5) {
        let order = if random.one_in(4) { "enable" } else { "stall" };
        script.push(joined(order, &[incoming, endpoint, random.below(2)]));
        let left = if endpoint != 0 && random.one_in(3) { "enabled" } else { "stalled" };
        if random.one_in(2) {
            let asked = if random.one_in(4) { 1 - incoming } else { incoming };
            script.push(joined(left, &[asked, endpoint]));
        }
    }
    if !random.one_in(4) {
        script.push(joined("enable", &[incoming, endpoint, 1]));
    }
}

/// Mostly about 3, where the silicon changes.
fn a_revision(random: &mut Random) -> usize {
    if random.one_in(3) {
        random.below(16)
    } else {
        random.one_of(&[0, 1, 2, 2, 3, 3, 3, 4, 15])
    }
}

/// An interrupt that reports EP0, or ends the status stage, with no link flag.
fn ep0_report(random: &mut Random, incoming: bool, script: &mut Script) {
    let status = usize::from(incoming && random.one_in(2));
    script.push("interrupt".into());
    while let Some(awaited) = script.calls.awaited() {
        script.push(match awaited {
            "transfer_status" => joined(awaited, &[0, status, 1, 0, incoming.into()]),
            // Around what fits.
            "ep0_length" => {
                let room = script.calls.stage_in_hand(false).map_or(8, |stage| stage.1 .1) as usize;
                joined(awaited, &[(room + random.below(3)).saturating_sub(1).min(512)])
            }
            _ => a_reading(random, awaited, &[], true, 64),
        });
    }
}

/// Where a caller's buffer lies: in the RAM or not, across its ends, aligned or not; never in the
/// driver's memory.
fn lent(random: &mut Random, length: usize, memory: (usize, usize)) -> usize {
    let outside = ram::FIRST + random.below(400_000);
    let address = match random.below(8) {
        0 => outside,
        1 => ram::END + random.below(400_000),
        // What is left of it may lie in the RAM, and aligned.
        2 if random.one_in(2) => (ram::START - random.below(length + 1)) & !3,
        2 => ram::START - random.below(length + 1),
        3 if random.one_in(2) => (ram::END - random.below(length + 1)) & !3,
        3 => ram::END - random.below(length + 1),
        4 => place(random, length + 3) + 1 + random.below(3),
        _ => place(random, length),
    };
    let apart = address + length <= memory.0 || memory.0 + memory.1 <= address;
    if apart {
        address
    } else {
        outside
    }
}

/// How many bytes a stage is given; rarely as many as no stage has.
fn a_stage(random: &mut Random) -> usize {
    if random.one_in(40) {
        random.one_of(&[65536, 65536 + 512, 600_000])
    } else {
        random.one_of(&[0, 1, 8, 18, 64, 511, 512, 512, 513, 600])
    }
}

fn a_pattern(random: &mut Random) -> usize {
    if random.one_in(10) {
        random.one_of(&[256, 1 << 31, u32::MAX as usize])
    } else {
        random.below(256)
    }
}

/// A call of EP0, mostly of the generation that stands.
fn control(random: &mut Random, script: &mut Script) {
    let current = script.calls.control().1;
    let generation = match random.below(16) {
        0 => current.wrapping_sub(1),
        1 => current.wrapping_add(1),
        2 => current ^ [1 << 8, 1 << 16, 1 << 31][random.below(3)],
        _ => current,
    };
    let first = random.below(2);
    let last = random.below(2);
    let line = match random.below(16) {
        0 | 1 => "setup".into(),
        2 | 3 => {
            let length = a_stage(random);
            let address = lent(random, length, script.memory);
            format!("data_out\t{generation}\t{address}\t{length}")
        }
        4..=6 => {
            let length = a_stage(random);
            let address = lent(random, length, script.memory);
            format!("data_in\t{generation}\t{address}\t{length}\t{first}\t{last}\t{}", a_pattern(random))
        }
        7 => format!("accept\t{generation}"),
        8 => {
            let address = random.one_of(&[0, 1, 5, 126, 127, 127, 128, 255, 256 + 5, 1 << 31]);
            format!("accept_address\t{generation}\t{address}")
        }
        9 => format!("reject\t{generation}"),
        10..=12 => {
            if random.one_in(2) {
                ep0_report(random, false, script);
            }
            let (generation, place) = script.calls.stage_in_hand(false).unwrap_or((generation, (ram::FIRST as u32, 8)));
            format!("take_out\t{generation}\t{}\t{}\t{}", place.0, place.1, a_pattern(random))
        }
        _ => {
            if random.one_in(2) {
                ep0_report(random, true, script);
            }
            format!("take_in\t{}", script.calls.stage_in_hand(true).map_or(generation, |stage| stage.0))
        }
    };
    script.push(line);
}

/// A set flag is any number but 0.
fn set(random: &mut Random, flag: bool) -> usize {
    match (flag, random.one_in(20)) {
        (false, _) => 0,
        (true, false) => 1,
        (true, true) => random.one_of(&[2, 3, 255, 256, 1 << 31, u32::MAX as usize]),
    }
}

/// A send or receive, or some of its next pieces.
fn moving(random: &mut Random, incoming: usize, endpoint: usize, size: usize, script: &mut Script) {
    if !(1..8).contains(&endpoint) {
        stray(random, incoming, endpoint, script);
        return;
    }
    let slot = 2 * endpoint + incoming;
    let by_pieces = script.calls.in_hand(slot).is_some_and(|hand| hand.0.is_some());
    // Now and then another one while one is in hand.
    if !by_pieces || random.one_in(12) {
        begin_moving(random, incoming, endpoint, size, script);
        if random.one_in(3) {
            return;
        }
    }
    if script.calls.in_hand(slot).is_none() && random.one_in(6) {
        stray(random, incoming, endpoint, script);
    }
    let size = script.calls.own(slot).map_or(size, |own| own.0);
    let full = random.one_in(2);
    for _ in 0..1 + random.below(6) {
        let Some((Some(asked), position)) = script.calls.in_hand(slot) else {
            return;
        };
        if script.calls.powered() && !random.one_in(6) {
            let last = match random.below(8) {
                _ if full => size,
                0 => random.below(size + 1),
                // Just what is left, so that a short packet fits, or one byte more.
                1 => ((asked.length - position.min(asked.length)) as usize % size + random.below(2)).min(size),
                _ => size,
            };
            let packets = if full { 255 } else { random.one_of(&[0, 1, 2, 255, 255]) };
            script.push(joined("report", &[incoming, endpoint, packets, last]));
        }
        go_on(random, incoming, endpoint, (asked, position), script);
    }
}

/// What is in hand goes on; the direction and the flags are said in some way.
fn go_on(random: &mut Random, incoming: usize, endpoint: usize, hand: (Asked, u32), script: &mut Script) {
    let (asked, position) = hand;
    let direction = set(random, incoming == 1);
    let single = set(random, asked.single);
    let flag = set(random, asked.flag);
    let place = [asked.address as usize, asked.length as usize, flag, a_pattern(random), position as usize];
    script.push(joined("next", &[&[direction, endpoint, single], &place[..]].concat()));
}

/// A call where there is no such endpoint, or nothing in hand.
fn stray(random: &mut Random, incoming: usize, endpoint: usize, script: &mut Script) {
    let length = random.one_of(&[0, 1, 64, 1024, 1025, 65536]);
    let address = lent(random, length, script.memory);
    let numbers = [incoming, endpoint, random.below(2), address, length, random.below(2), a_pattern(random)];
    if (1..8).contains(&endpoint) || random.one_in(2) {
        script.push(joined("next", &[&numbers[..], &[random.below(length + 1)]].concat()));
    } else {
        script.push(joined("move", &numbers));
    }
}

/// How many bytes are moved: about whole packets, or whole own buffers, or a few of them and some
/// packets.
fn a_length(random: &mut Random, single: bool, size: usize, own: usize) -> usize {
    let packets = random.one_of(&[0, 1, 1, 2, 3, 16, 17, 33]);
    let whole = match random.below(8) {
        _ if single && !random.one_in(6) => packets.min(1) * size,
        0..=2 => packets * size,
        3..=5 => random.below(4) * own,
        6 => random.below(3) * own + packets.min(3) * size,
        _ => random.below(12 * size),
    };
    match random.below(8) {
        0 => whole.saturating_sub(1),
        1 => whole + 1,
        2 => whole + random.below(size + 1),
        3 => whole.saturating_sub(random.below(size + 1)),
        _ => whole,
    }
}

/// Where the bytes of a send or receive lie. Those whose pieces come to the RAM's start, or whose
/// end is about the RAM's, are favoured.
fn moved_at(random: &mut Random, length: usize, own: usize, memory: (usize, usize)) -> usize {
    let near = [0, 1, 2, 3, 4, 8];
    let address = match random.below(16) {
        // A whole number of own buffers before the RAM, or nearly.
        0 => ram::START + random.one_of(&near) - own * random.below(4) - 4 * random.below(2),
        1 => ram::START + 4 - random.one_of(&near),
        2 => ram::END - length - random.one_of(&near),
        3 => ram::END - length + random.one_of(&near),
        4 => (ram::END - length + 4) & !3,
        5 => ram::END - random.one_of(&near),
        _ => return lent(random, length, memory),
    };
    let apart = address + length <= memory.0 || memory.0 + memory.1 <= address;
    if apart {
        address
    } else {
        lent(random, length, memory)
    }
}

fn begin_moving(random: &mut Random, incoming: usize, endpoint: usize, size: usize, script: &mut Script) {
    let slot = 2 * endpoint + incoming;
    let single = random.one_in(2);
    let held = script.calls.own(slot);
    if held.is_none() && single && incoming == 1 {
        return;
    }
    // Mostly on what is fit and free.
    if held.is_some() && script.calls.powered() && !random.one_in(4) {
        if !script.calls.ready(slot) {
            script.push(joined("stall", &[incoming, endpoint, 0]));
            script.push(joined("enable", &[incoming, endpoint, 1]));
        } else if script.calls.in_hand(slot).is_some() {
            script.push(joined("abandon", &[incoming, endpoint]));
        }
    }
    let (size, _, own) = held.unwrap_or((size, 0, size));
    let length = a_length(random, single, size, own);
    let address = moved_at(random, length, own, script.memory);
    let wants = random.one_in(2);
    let (direction, single) = (set(random, incoming == 1), set(random, single));
    let flag = set(random, wants);
    script.push(joined("move", &[direction, endpoint, single, address, length, flag, a_pattern(random)]));
}

/// An allocation that is right but for one thing, while there is room.
fn one_wrong(random: &mut Random) -> String {
    let incoming = random.below(2);
    let kind = 1 + random.below(3);
    let size = if kind == 2 { 1024 } else { random.one_of(&[1, 64, 1024]) };
    let mut numbers = [incoming, 0, incoming, 1 + random.below(7), kind, size, 1, 0, 0, 0];
    match random.below(8) {
        0 => (numbers[4], numbers[5]) = (0, random.one_of(&[8, 64, 512, 512, 1024])),
        1 => (numbers[4], numbers[5]) = (2, random.one_of(&[0, 512, 512, 1025, 2048, 1024 + 16384, 1024 + 16384])),
        2 => (numbers[4], numbers[5]) = (random.one_of(&[1, 3]), random.one_of(&[0, 0, 1025, 1025, 2048, 65535])),
        3 => (numbers[4], numbers[6]) = (random.one_of(&[1, 3]), 0),
        4 => numbers[7] = random.one_of(&[16, 16, 17, 255]),
        5 => numbers[random.one_of(&[8, 9])] = random.one_of(&[1, 2, 255]),
        6 => (numbers[1], numbers[2]) = (1, 1 - incoming),
        _ => (numbers[1], numbers[3]) = (1, random.one_of(&[0, 8, 9, 15])),
    }
    joined("allocate", &numbers)
}

/// A driver whose memory ends about where its last buffer does; it isn't started.
fn tight(random: &mut Random, script: &mut Script) {
    let buffers: Vec<_> = (0..1 + random.below(4)).map(|_| (1 + random.below(1024), random.below(4))).collect();
    let used = buffers.iter().fold(512, |used: usize, (size, burst)| used.next_multiple_of(4) + size * (burst + 1));
    let memory = place(random, 20_000);
    script.push(joined("driver", &[memory, used + random.below(3) - 1]));
    for (size, burst) in buffers {
        script.push(joined("allocate", &[random.below(2), 0, 0, 0, 3, size, 1, burst]));
    }
}

/// A driver with endpoints, then `count` calls with orders and power among transfers on several
/// slots; at its end it is off.
fn life(random: &mut Random, count: usize, script: &mut Script) {
    let parts = script.parts;
    let (interrupts, controls) = (parts.has(Parts::INTERRUPTS), parts.has(Parts::CONTROL));
    if script.lines.is_empty() {
        unstarted(random, script);
    }
    // Memory at the edges, often refused; a driver that is made there isn't started.
    for _ in 0..random.below(4) {
        let (start, end) = (ram::START, ram::END);
        let near = [start - 4, start - 1, start, start + 1, start + 3, end - 515, end - 512, end - 1, end, end + 4];
        let memory = random.one_of(&near);
        let capacity = match random.below(3) {
            // About what EP0 takes, or about all that is left.
            0 => 511 + memory.next_multiple_of(4) - memory + random.below(2),
            1 => (end + random.below(3)).saturating_sub(memory + 1),
            _ => random.one_of(&[0, 1, 511, 512, 513, 514, 515, 516, end - start, end - start + 1]),
        };
        script.push(format!("driver\t{memory}\t{capacity}"));
    }
    if random.one_in(2) {
        tight(random, script);
    }
    // Unaligned or tight memory is favoured.
    let memory = place(random, 40_000) + random.below(4);
    let room = random.one_of(&[4000, 38_000, 38_000]);
    let capacity = (515 + random.below(room)).min(ram::END - memory);
    script.memory = (memory, capacity);
    script.push(format!("driver\t{memory}\t{capacity}"));
    for _ in 0..random.below(12) {
        script.push(one_wrong(random));
    }
    let mut sizes = [0usize; 16];
    for _ in 0..4 + random.below(36) {
        let incoming = random.below(2);
        let kind = if random.one_in(10) { 0 } else { 1 + random.below(3) };
        let size = match kind {
            2 if !random.one_in(10) => 1024,
            _ if random.one_in(3) => random.one_of(&[1, 2, 3, 8, 64, 1024]),
            _ => random.below(1026),
        };
        let requested = random.below(2);
        let wanted = if random.one_in(8) { 1 - incoming } else { incoming };
        let endpoint = if random.one_in(10) { random.below(16) } else { 1 + random.below(7) };
        let interval = if random.one_in(10) { 0 } else { 1 + random.below(255) };
        let burst = if random.one_in(2) { random.one_of(&[1, 1, 2, 2, 3, 7, 14, 15, 16, 255]) } else { 0 };
        let streams = usize::from(random.one_in(20));
        let mult = usize::from(random.one_in(20));
        script.push(format!(
            "allocate\t{incoming}\t{requested}\t{wanted}\t{endpoint}\t{kind}\t{size}\t{interval}\t{burst}\t{streams}\t{mult}"
        ));
        if random.one_in(60) {
            script.push(refused_driver(random));
        }
        // Where it lands if it is granted; a wrong guess only makes for more refusals.
        let free = (1..8).find(|n| sizes[2 * n + incoming] == 0).unwrap_or(0);
        let lands = if requested == 1 { endpoint } else { free };
        if lands < 8 && sizes[2 * lands + incoming] == 0 {
            sizes[2 * lands + incoming] = size.max(1);
        }
    }
    if random.one_in(3) {
        unstarted(random, script);
    }
    if random.one_in(3) {
        script.push(format!("start\t{}", random.one_of(&[0, 8, 64, 511, 513, 1024, 65535])));
    }
    script.push("start\t512".into());
    if random.one_in(2) {
        script.push("state".into());
    }
    if controls && !random.one_in(3) {
        // So that it wraps.
        let near = [0, u32::MAX as usize, u32::MAX as usize - 1, u32::MAX as usize - 5, 1 << 31];
        script.push(format!("generation\t{}", random.one_of(&near)));
    }
    script.push("state".into());
    let asked: Vec<usize> = (2..16).filter(|slot| sizes[*slot] != 0).collect();
    for _ in 0..count {
        let mut incoming = random.below(2);
        let mut endpoint = 1 + random.below(7);
        match random.below(30) {
            0 => endpoint = random.one_of(&[0, 0, 8, 8, 9, 15, 127, 128, 129, 200, 256, 258, u32::MAX as usize]),
            1 => {}
            _ if asked.is_empty() => {}
            _ => {
                let slot = random.one_of(&asked);
                (incoming, endpoint) = (slot % 2, slot / 2);
            }
        }
        let data = (1..8).contains(&endpoint);
        let size = if data { sizes[2 * endpoint + incoming].max(1) } else { 64 };
        let powered = script.calls.powered();
        if !powered && random.one_in(4) {
            orders(random, incoming, endpoint, script);
        }
        if controls && !powered && random.one_in(2) {
            control(random, script);
        }
        // Power comes back with the generation of a stage that was dropped.
        let stage = script.calls.stage_in_hand(random.one_in(2)).filter(|_| controls && !powered && random.one_in(3));
        if let Some((generation, _)) = stage {
            script.push(format!("generation\t{}", generation.wrapping_sub(1)));
            script.push(format!("on\t{}", a_revision(random)));
            control(random, script);
            continue;
        }
        if !powered && random.one_in(3) {
            script.push(format!("on\t{}", a_revision(random)));
            for slot in 2..16 {
                if !random.one_in(4) {
                    script.push(format!("enable\t{}\t{}\t1", slot % 2, slot / 2));
                }
            }
            continue;
        }
        if !powered && random.one_in(40) {
            script.push(refused_driver(random));
        }
        if parts.0 != 0 {
            match random.below(11) {
                0 | 1 if interrupts => {
                    conversation(random, &asked, &sizes, script);
                    continue;
                }
                8 if interrupts && random.one_in(4) => {
                    link_walk(random, script);
                    continue;
                }
                9 if random.one_in(4) => {
                    // Where something is in hand, if there is such a slot, and often done.
                    let in_hand = asked.iter().find(|slot| script.calls.in_hand(**slot).is_some());
                    let slot = *in_hand.unwrap_or(&(2 * endpoint.min(7) + incoming));
                    if powered && in_hand.is_some() && random.one_in(2) {
                        script.push(joined("report", &[slot % 2, slot / 2, 1, 0]));
                    }
                    orders(random, slot % 2, slot / 2, script);
                    continue;
                }
                2 | 6 if controls => {
                    // Some after each other, before a reset ends the transfer.
                    for _ in 0..1 + random.below(4) {
                        control(random, script);
                    }
                    continue;
                }
                3..=5 if parts.has(Parts::MOVES) => {
                    // Mostly where there is an endpoint.
                    let held: Vec<usize> = (2..16).filter(|slot| script.calls.own(*slot).is_some()).collect();
                    if held.is_empty() || random.one_in(6) {
                        moving(random, incoming, endpoint, size, script);
                    } else {
                        let slot = random.one_of(&held);
                        moving(random, slot % 2, slot / 2, sizes[slot].max(1), script);
                    }
                    continue;
                }
                7 if parts.has(Parts::WAKEUP) && random.one_in(6) => {
                    script.push("wakeup".into());
                    continue;
                }
                _ => {}
            }
        }
        let on = usize::from(!random.one_in(6));
        let call = match random.below(100) {
            0..=29 => {
                let packets = match random.below(4) {
                    0 => 255 * random.below(4) + random.below(3),
                    _ => random.below(6),
                };
                let mut length = packets.min((ram::END - ram::START) / size) * size;
                if random.one_in(if incoming == 1 { 2 } else { 20 }) {
                    length += random.below(size + 2);
                }
                let mut address = place(random, length);
                // What no transfer can have.
                if random.one_in(15) {
                    match random.below(6) {
                        0 => address += 1 + random.below(3),
                        1 => address += 0x10_0000,
                        2 => address = random.one_of(&[0, ram::START - 4, ram::END, u32::MAX as usize - 3]),
                        3 => address = (ram::END - length / 2) & !3,
                        4 => length = random.one_of(&[0, 0xe_0004, u32::MAX as usize]),
                        _ => length += 1,
                    }
                }
                format!("begin\t{incoming}\t{endpoint}\t{address}\t{length}\t{}", random.below(2))
            }
            30..=64 if powered && data => {
                let packets = match random.below(3) {
                    0 => 255,
                    1 => random.below(256),
                    _ => random.below(4),
                };
                let last = match random.below(8) {
                    0 => random.below(size + 1),
                    1 => random.one_of(&[0, size.saturating_sub(1), size + 1, 65535]),
                    _ => size,
                };
                format!("report\t{incoming}\t{endpoint}\t{packets}\t{last}")
            }
            65..=79 => format!("take\t{incoming}\t{endpoint}"),
            80..=83 => {
                // Often what is done.
                if powered && data && random.one_in(2) {
                    script.push(joined("report", &[incoming, endpoint, 1, 0]));
                }
                format!("abandon\t{incoming}\t{endpoint}")
            }
            84..=87 if random.one_in(2) => {
                orders(random, incoming, endpoint, script);
                continue;
            }
            84..=87 => format!("stall\t{incoming}\t{endpoint}\t{}", random.below(2)),
            88..=93 => format!("enable\t{incoming}\t{endpoint}\t{on}"),
            94 if endpoint != 0 && random.one_in(2) => format!("enabled\t{incoming}\t{endpoint}"),
            94 => format!("stalled\t{incoming}\t{endpoint}"),
            95 if random.one_in(3) => "off".into(),
            96 if random.one_in(3) => format!("on\t{}", random.below(18)),
            97 => "state".into(),
            98 => {
                for _ in 0..random.below(6) {
                    script.push(format!("raise\t{}", an_event(random)));
                }
                for _ in 0..random.below(3) {
                    script.push("poll".into());
                }
                "poll".into()
            }
            99 if powered && random.one_in(3) => "reset".into(),
            _ => format!("take\t{incoming}\t{endpoint}"),
        };
        // What goes on by pieces isn't taken.
        let by_pieces = |slot: usize| script.calls.in_hand(slot).is_some_and(|hand| hand.0.is_some());
        if data && call.starts_with("take") && by_pieces(2 * endpoint + incoming) {
            moving(random, incoming, endpoint, size, script);
            continue;
        }
        // What an order left is often asked for.
        let left = match call.split('\t').next() {
            Some("stall") => Some("stalled"),
            Some("enable") if endpoint != 0 => Some("enabled"),
            _ => None,
        };
        script.push(call);
        if let Some(left) = left.filter(|_| random.one_in(2)) {
            script.push(joined(left, &[incoming, endpoint]));
        }
    }
    // What the next driver finds: slots still to be woken, an address that waits, a suspended link.
    match random.below(4) {
        0 if script.calls.powered() => script.push("reset".into()),
        0 => script.push(format!("on\t{}", a_revision(random))),
        1 if controls => {
            let generation = script.calls.control().1;
            script.push(format!("accept_address\t{generation}\t{}", 1 + random.below(127)));
        }
        2 if interrupts => link_walk(random, script),
        _ => {}
    }
    script.push("off".into());
    script.push("state".into());
}
