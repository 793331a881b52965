//! A script of calls, one a line: a word, then numbers with tabs between them (docs/REPLAY.md).
use std::future::Future;
use std::pin::{pin, Pin};
use std::task::Poll;

use embassy_usb_driver::{
    Bus as _, ControlPipe as _, Driver as _, Endpoint as _, EndpointConfig, EndpointError, EndpointIn as _,
    EndpointOut as _, EndpointType, Event,
};
use record::{Entry, Reading};

use crate::device::{address, at_once, converse, interrupt, poll, reading, transfer_readings, EP0_SIZE};
use crate::line::in_ram;
use crate::parts::Irqs;
use crate::peripherals::USBSS;
use crate::usbss::host::probe;
use crate::usbss::{Bus, ControlPipe, Driver, Endpoint, Error};
use crate::words::{self, Numbers};
use crate::{ram, readings, Peri};

type Moving = Pin<Box<dyn Future<Output = Result<usize, EndpointError>>>>;

/// An endpoint lives on behind a pointer: its future borrows it, and there is one at a time.
#[derive(Clone, Copy)]
enum Pipe {
    In(*mut Endpoint<'static, USBSS, true>),
    Out(*mut Endpoint<'static, USBSS, false>),
}

/// What a send or receive was asked for: one packet, address, length, flag.
#[derive(Clone, Copy, PartialEq, Eq, Debug)]
pub struct Asked {
    pub single: bool,
    pub address: u32,
    pub length: u32,
    pub flag: bool,
}

/// A transfer by `run`, or a send or receive with the bytes before the piece in hand.
struct Running {
    future: Moving,
    asked: Option<Asked>,
    position: u32,
}

/// A stage of EP0. One that accepts says nothing of how it ended.
struct Stage {
    future: Moving,
    generation: u32,
    lent: (u32, u32),
}

/// An interrupt whose handler waits for a reading.
struct Conversation {
    before: probe::device::Snapshot,
    readings: Vec<Reading>,
    differs: bool,
    asks: (&'static str, u32),
}

#[derive(Default)]
pub struct Calls {
    driver: Option<Driver<'static, USBSS>>,
    bus: Option<Bus<'static, USBSS>>,
    pipes: [Option<(Pipe, u32)>; 16],
    running: [Option<Running>; 16],
    /// OUT, then IN.
    stages: [Option<Stage>; 2],
    conversation: Option<Conversation>,
    count: u32,
}

/// What a call gives besides its records.
struct Answer {
    number: &'static str,
    value: usize,
    /// Lines before the answer.
    told: Vec<String>,
}

fn refused(number: &'static str) -> Answer {
    Answer { number, value: 0, told: Vec::new() }
}

fn done(value: usize) -> Answer {
    Answer { number: "0", value, told: Vec::new() }
}

fn error_number(error: EndpointError) -> &'static str {
    match error {
        EndpointError::Disabled => "22",
        EndpointError::BufferOverflow => "9",
    }
}

fn kind(number: u32) -> EndpointType {
    match number {
        0 => EndpointType::Control,
        1 => EndpointType::Isochronous,
        2 => EndpointType::Bulk,
        _ => EndpointType::Interrupt,
    }
}

/// As the port numbers them.
fn event_number(event: Event) -> usize {
    match event {
        Event::Reset => 1,
        Event::Suspend => 2,
        Event::Resume => 4,
        Event::PowerDetected => 8,
        Event::PowerRemoved => panic!("an event that the driver doesn't have"),
    }
}

/// The transfer that a piece became.
fn piece(slot: usize) -> String {
    let (address, length, _, flag) = probe::device::transfer(slot);
    format!("piece\t{address}\t{length}\t{}", u8::from(flag))
}

impl Calls {
    /// The reading that is awaited.
    pub fn awaited(&self) -> Option<&'static str> {
        self.conversation.as_ref().map(|conversation| readings::awaited(conversation.asks.0))
    }

    pub fn powered(&self) -> bool {
        probe::device::powered()
    }

    /// Where EP0's bytes lie, and the generation.
    pub fn control(&self) -> (usize, u32) {
        probe::device::control()
    }

    /// The packet size of an endpoint that was allocated, and its own buffer's address and length.
    pub fn own(&self, slot: usize) -> Option<(usize, usize, usize)> {
        self.pipes[slot].map(|(pipe, size)| {
            let (address, length) = match pipe {
                Pipe::In(endpoint) => probe::endpoint::own(unsafe { &*endpoint }),
                Pipe::Out(endpoint) => probe::endpoint::own(unsafe { &*endpoint }),
            };
            (size as usize, address, length)
        })
    }

    pub fn ready(&self, slot: usize) -> bool {
        probe::device::ready(slot)
    }

    /// For a generator: whether a call is in hand on a slot, and what it was asked for.
    pub fn in_hand(&self, slot: usize) -> Option<(Option<Asked>, u32)> {
        self.running[slot].as_ref().map(|running| (running.asked, running.position))
    }

    /// For a generator: whether EP0 has a stage in hand, and where its bytes go.
    pub fn stage_in_hand(&self, incoming: bool) -> Option<(u32, (u32, u32))> {
        self.stages[usize::from(incoming)].as_ref().map(|stage| (stage.generation, stage.lent))
    }

    /// The lines to print for a line of the script, its line feed left out.
    pub fn call(&mut self, line: &[u8]) -> Vec<String> {
        let Some((word, n)) = words::read(line) else {
            return vec!["unfit".into()];
        };
        if word == "state" {
            let mut lines = probe::device::lines();
            lines.insert(3, format!("awaits\t{}", self.awaited().unwrap_or("nothing")));
            return lines;
        }
        // Other scripts than these would compare what neither side is asked.
        let (off, on, alone) =
            (["driver", "generation"], ["report", "reset"], ["raise", "poll", "driver", "reset", "start"]);
        let powered = probe::device::powered();
        assert!(!(powered && off.contains(&word) || !powered && on.contains(&word)), "out of turn: {word}");
        assert!(self.conversation.is_none() || !alone.contains(&word), "out of turn: {word}");
        if self.awaited().is_some_and(|awaited| awaited != word)
            || self.conversation.is_none() && readings::words().contains(&word)
        {
            return vec!["answer\t24\t0\t0\t0".into()];
        }
        if self.conversation.is_some() {
            return self.go_on(word, &n);
        }
        // The window differs at every second call.
        self.count += 1;
        let differs = self.count % 2 == 0;
        record::set_differs(differs);
        if word == "interrupt" {
            let before = probe::device::snapshot();
            self.conversation = Some(Conversation { before, readings: Vec::new(), differs, asks: ("", 0) });
            return self.converse();
        }
        let answer = self.answer(word, &n);
        Self::lines(record::take(), Some(answer))
    }

    /// Records, copies and faults, then the answer if there is one.
    fn lines(entries: Vec<Entry>, answer: Option<Answer>) -> Vec<String> {
        let mut lines = Vec::new();
        // A refused begin leaves the bytes as they were (docs/DIFFERENCES.md); the Rust copies first.
        let keeps = answer.as_ref().is_some_and(|answer| answer.number == "22");
        let mut waited = 0;
        for entry in entries {
            match entry {
                Entry::Operation(record) => lines.push(record.to_string()),
                Entry::Asked(..) => {}
                Entry::Copied(..) if keeps => {}
                Entry::Copied(from, to, count, sum) => lines.push(format!("copy\t{from}\t{to}\t{count}\t{sum}")),
                Entry::Aside(what) if what == "wait 100 us" => waited = 100,
                Entry::Aside(_) => {}
                Entry::Fault(what) => lines.push(format!("fault\t{what}")),
            }
        }
        if let Some(answer) = answer {
            let (bus, slots) = probe::device::take_wakes();
            let value = if waited != 0 { waited } else { answer.value };
            lines.extend(answer.told);
            lines.push(format!("answer\t{}\t{value}\t{}\t{slots}", answer.number, u8::from(bus)));
        }
        lines
    }

    fn answer(&mut self, word: &str, n: &Numbers) -> Answer {
        let slot = (2 * n[1].min(7) + n[0].min(1)) as usize;
        let data = (1..=7).contains(&n[1]);
        let part = (n[1] as usize, n[0] != 0);
        // An address has seven bits for its endpoint; all above 7 are the same to the Rust.
        let address = || address(part.0.min(127), part.1);
        match word {
            "driver" => self.make(n[0], n[1]),
            "allocate" => self.allocate(n),
            "start" => self.start(n[0]),
            "on" if n[0] > 15 => refused("11"),
            "on" if self.bus.is_none() && probe::device::control().0 == 0 => refused("22"),
            "on" => {
                record::set_revision(n[0] as u8);
                at_once(self.bus().enable());
                done(0)
            }
            "off" => {
                at_once(self.bus().disable());
                done(0)
            }
            "enable" => {
                self.bus().endpoint_set_enabled(address(), n[2] != 0);
                done(0)
            }
            "stall" => {
                self.bus().endpoint_set_stalled(address(), n[2] != 0);
                done(0)
            }
            "stalled" => {
                let stalled = self.bus().endpoint_is_stalled(address());
                done(stalled.into())
            }
            "enabled" => {
                assert!(n[1] != 0, "out of turn: nobody waits for EP0");
                done(match self.pipes[slot] {
                    Some((Pipe::In(endpoint), _)) if data => {
                        poll(pin!(unsafe { &mut *endpoint }.wait_enabled())).is_ready().into()
                    }
                    Some((Pipe::Out(endpoint), _)) if data => {
                        poll(pin!(unsafe { &mut *endpoint }.wait_enabled())).is_ready().into()
                    }
                    _ => 0,
                })
            }
            "wakeup" if self.bus.is_none() && probe::device::control().0 == 0 => refused("25"),
            "wakeup" => match at_once(self.bus().remote_wakeup()) {
                Ok(()) => done(0),
                Err(_) => refused("25"),
            },
            "raise" if ![1, 2, 4, 8].contains(&n[0]) => refused("11"),
            "raise" => {
                probe::device::raise(n[0] as u8);
                done(0)
            }
            "poll" => match poll(pin!(self.bus().poll())) {
                Poll::Ready(event) => done(event_number(event)),
                Poll::Pending => done(0),
            },
            "reset" => {
                probe::device::bus_reset();
                done(0)
            }
            "begin" | "take" | "abandon" | "move" | "next" if !data => refused("7"),
            "begin" => self.begin(slot, n[2], n[3], n[4] != 0),
            "take" => self.take(slot),
            "abandon" => {
                self.running[slot] = None;
                done(0)
            }
            "move" => self.move_bytes(slot, Self::asked(slot, n), n[6]),
            "next" => self.next(slot, Self::asked(slot, n), n[7], n[6]),
            "report" => {
                assert!(data && n[2] < 256 && n[3] < 65536, "out of turn: no such report");
                let (endpoint, incoming) = part;
                let mut readings = transfer_readings(endpoint, incoming);
                if !incoming {
                    readings.push(reading("rx.chain_nump", endpoint, &[("all", n[2])]));
                    readings.push(reading("rx.chain_len", endpoint, &[("len", n[3])]));
                }
                interrupt(readings);
                done(0)
            }
            "setup" => self.setup(),
            "data_out" | "data_in" | "accept" | "accept_address" => self.begin_stage(word, n),
            "take_out" => self.take_stage(false, n[0], (n[1], n[2]), n[3]),
            "take_in" => self.take_stage(true, n[0], (0, 0), 0),
            "generation" => {
                probe::device::set_generation(n[0]);
                done(0)
            }
            "reject" => {
                at_once(probe::control::pipe(n[0]).reject());
                done(0)
            }
            _ => unreachable!("a word of the table that is no call: {word}"),
        }
    }

    /// A reading of the kind that is awaited.
    fn go_on(&mut self, word: &str, n: &Numbers) -> Vec<String> {
        let conversation = self.conversation.as_mut().unwrap();
        let Some(reading) = readings::read(word, conversation.asks.1, n) else {
            return vec!["answer\t11\t0\t0\t0".into()];
        };
        conversation.readings.push(reading);
        self.converse()
    }

    /// The handler from its start, over the state that it found, with all readings so far. What
    /// it did up to the last one has been printed.
    fn converse(&mut self) -> Vec<String> {
        let conversation = self.conversation.as_mut().unwrap();
        probe::device::restore(&conversation.before);
        record::set_differs(conversation.differs);
        let ended = converse(conversation.readings.clone());
        let entries = record::take();
        let asked: Vec<usize> = (0..entries.len()).filter(|at| matches!(entries[*at], Entry::Asked(..))).collect();
        let known = conversation.readings.len();
        let from = if known == 0 { 0 } else { asked[known - 1] + 1 };
        let fresh = entries[from..].to_vec();
        if ended {
            self.conversation = None;
            return Self::lines(fresh, Some(done(0)));
        }
        let Entry::Asked(register, index) = entries[asked[known]] else { unreachable!() };
        conversation.asks = (register, index);
        let mut lines = Self::lines(fresh, None);
        lines.push(format!("awaits\t{}", readings::awaited(register)));
        lines
    }

    fn make(&mut self, address: u32, length: u32) -> Answer {
        // Creation looks at the place alone, so that one outside RAM may be given too, but for 0,
        // where no slice can be.
        let first = address.max(1) as usize as *mut u8;
        let memory = unsafe { std::slice::from_raw_parts_mut(first, length as usize) };
        match Driver::new(Peri::new(USBSS), Irqs, memory) {
            Ok(driver) => {
                // It takes the peripheral of the one before, which is off.
                self.running = Default::default();
                self.stages = Default::default();
                self.pipes = Default::default();
                self.bus = None;
                probe::device::take_wakes();
                self.driver = Some(driver);
                done(0)
            }
            Err(Error::InvalidMemory) => refused("1"),
            Err(Error::BufferTooSmall) => refused("2"),
        }
    }

    /// The Rust has one error where the port has five numbers.
    fn allocate(&mut self, n: &Numbers) -> Answer {
        let config = EndpointConfig {
            addr: (n[1] != 0).then(|| address(n[3] as usize, n[2] != 0)),
            ep_type: kind(n[4]),
            max_packet_size: n[5] as u16,
            interval_ms: n[6] as u8,
            max_burst: n[7] as u8,
            max_streams: n[8] as u16,
            mult: n[9] as u8,
        };
        let driver = self.driver.as_mut().expect("out of turn: no driver");
        let pipe = if n[0] != 0 {
            driver.alloc_endpoint_in(&config).map(|endpoint| Pipe::In(Box::into_raw(Box::new(endpoint))))
        } else {
            driver.alloc_endpoint_out(&config).map(|endpoint| Pipe::Out(Box::into_raw(Box::new(endpoint))))
        };
        let Ok(pipe) = pipe else {
            return refused("refused");
        };
        let (index, buffer) = match pipe {
            Pipe::In(endpoint) => probe::endpoint::place(unsafe { &*endpoint }),
            Pipe::Out(endpoint) => probe::endpoint::place(unsafe { &*endpoint }),
        };
        self.pipes[2 * index + n[0].min(1) as usize] = Some((pipe, n[5]));
        done(buffer)
    }

    fn start(&mut self, size: u32) -> Answer {
        assert!(self.driver.is_some(), "out of turn: no driver");
        // The Rust would panic, and the driver be gone.
        if size as usize != EP0_SIZE {
            return refused("6");
        }
        let (bus, _control) = self.driver.take().unwrap().start(size as u16);
        self.bus = Some(bus);
        done(0)
    }

    fn bus(&mut self) -> &mut Bus<'static, USBSS> {
        self.bus.as_mut().expect("out of turn: not started")
    }

    /// 22, then 23; the Rust has the former too, where somebody holds such an endpoint.
    fn due(&self, slot: usize) -> Option<&'static str> {
        if !probe::device::ready(slot) {
            return Some("22");
        }
        (!probe::device::idle(slot)).then_some("23")
    }

    fn begin(&mut self, slot: usize, address: u32, length: u32, flag: bool) -> Answer {
        let Some((pipe, size)) = self.pipes[slot] else {
            // Nobody holds such an endpoint.
            return refused("22");
        };
        if self.due(slot) == Some("23") {
            return refused("23");
        }
        let whole = slot % 2 == 1 || (length != 0 && length % size == 0);
        if self.due(slot).is_none() && !(in_ram(address, length) && whole) {
            return refused("8");
        }
        // One that was dropped by an order or reset: its task gives up before it begins anew.
        self.running[slot] = None;
        let (address, length) = (address as usize, length as usize);
        let mut future: Moving = match pipe {
            Pipe::In(endpoint) => Box::pin(probe::endpoint::run(unsafe { &mut *endpoint }, address, length, flag)),
            Pipe::Out(endpoint) => Box::pin(probe::endpoint::run(unsafe { &mut *endpoint }, address, length, flag)),
        };
        match poll(future.as_mut()) {
            Poll::Pending => {
                self.running[slot] = Some(Running { future, asked: None, position: 0 });
                done(0)
            }
            Poll::Ready(Err(error)) => refused(error_number(error)),
            Poll::Ready(other) => panic!("{other:?}"),
        }
    }

    fn take(&mut self, slot: usize) -> Answer {
        let Some(running) = self.running[slot].as_mut() else {
            return refused("22");
        };
        assert!(running.asked.is_none(), "out of turn: a send or receive goes on by next");
        let answer = match poll(running.future.as_mut()) {
            Poll::Pending => return refused("busy"),
            Poll::Ready(Ok(bytes)) => done(bytes),
            Poll::Ready(Err(error)) => refused(error_number(error)),
        };
        self.running[slot] = None;
        answer
    }

    fn asked(slot: usize, n: &Numbers) -> Asked {
        Asked { single: n[2] != 0, address: n[3], length: n[4], flag: slot % 2 == 1 && n[5] != 0 }
    }

    /// `write`, `write_transfer`, `read` or `read_transfer`: a send's bytes are filled before.
    fn move_bytes(&mut self, slot: usize, asked: Asked, pattern: u32) -> Answer {
        let Some((pipe, size)) = self.pipes[slot] else {
            assert!(slot % 2 == 0 || !asked.single, "out of turn: an endpoint without a packet size");
            return refused("22");
        };
        let long = slot % 2 == 1 && asked.single && asked.length > size;
        if self.due(slot) == Some("23") {
            return refused(if long { "9" } else { "23" });
        }
        let unfit = self.due(slot) == Some("22");
        self.running[slot] = None;
        let bytes = unsafe { ram::lent(asked.address, asked.length) };
        if slot % 2 == 1 {
            ram::fill(bytes, pattern);
        }
        let mut future: Moving = match pipe {
            Pipe::In(endpoint) => {
                let endpoint = unsafe { &mut *endpoint };
                Box::pin(async move {
                    if asked.single {
                        endpoint.write(bytes).await.map(|()| 0)
                    } else {
                        endpoint.write_transfer(bytes, asked.flag).await.map(|()| 0)
                    }
                })
            }
            Pipe::Out(endpoint) => {
                let endpoint = unsafe { &mut *endpoint };
                Box::pin(async move {
                    if asked.single {
                        endpoint.read(bytes).await
                    } else {
                        endpoint.read_transfer(bytes).await
                    }
                })
            }
        };
        match poll(future.as_mut()) {
            Poll::Pending => {
                self.running[slot] = Some(Running { future, asked: Some(asked), position: 0 });
                Answer { number: "0", value: 0, told: vec![piece(slot)] }
            }
            // Nothing to send: the Rust doesn't look at the endpoint, the port does.
            Poll::Ready(Ok(_)) if unfit => refused("22"),
            Poll::Ready(Ok(bytes)) => done(bytes),
            Poll::Ready(Err(error)) => refused(error_number(error)),
        }
    }

    /// A send or receive goes on. The pattern fills the bytes to send, or those received.
    fn next(&mut self, slot: usize, asked: Asked, position: u32, pattern: u32) -> Answer {
        let Some(running) = self.running[slot].as_mut() else {
            return refused("22");
        };
        assert_eq!(running.asked, Some(asked), "out of turn: another call is in hand");
        assert_eq!(running.position, position, "out of turn: another place");
        let was_done = probe::device::done(slot);
        let (_, _, progress, _) = probe::device::transfer(slot);
        match self.pipes[slot] {
            Some((Pipe::Out(endpoint), _)) if was_done => {
                let (own, size) = probe::endpoint::own(unsafe { &*endpoint });
                ram::fill(unsafe { ram::slice(own, size) }, pattern);
            }
            Some((Pipe::In(_), _)) => ram::fill(unsafe { ram::lent(asked.address, asked.length) }, pattern),
            _ => {}
        }
        let answer = match poll(running.future.as_mut()) {
            Poll::Pending if !was_done => return refused("busy"),
            Poll::Pending => {
                running.position += progress as u32;
                return Answer { number: "more", value: 0, told: vec![piece(slot)] };
            }
            Poll::Ready(Ok(bytes)) => done(bytes),
            Poll::Ready(Err(error)) => refused(error_number(error)),
        };
        self.running[slot] = None;
        answer
    }

    fn setup(&mut self) -> Answer {
        let mut pipe = probe::control::pipe(0);
        let Poll::Ready(bytes) = poll(pin!(pipe.setup())) else {
            return done(0);
        };
        let bytes: Vec<String> = bytes.iter().map(u8::to_string).collect();
        let line = format!("setup\t{}\t{}", bytes.join("\t"), probe::control::generation(&pipe));
        Answer { number: "0", value: 1, told: vec![line] }
    }

    fn begin_stage(&mut self, word: &str, n: &Numbers) -> Answer {
        let generation = n[0];
        let old = !probe::device::powered() || probe::device::control().1 != generation;
        let pipe: &'static mut ControlPipe<'static, USBSS> = Box::leak(Box::new(probe::control::pipe(generation)));
        let incoming = word != "data_out";
        let mut lent = (0, 0);
        let mut future: Moving = match word {
            "data_out" => {
                lent = (n[1], n[2]);
                let bytes = unsafe { ram::lent(n[1], n[2]) };
                Box::pin(async move { pipe.data_out(bytes, true, true).await })
            }
            "data_in" => {
                let bytes = unsafe { ram::lent(n[1], n[2]) };
                ram::fill(bytes, n[5]);
                let (first, last) = (n[3] != 0, n[4] != 0);
                Box::pin(async move { pipe.data_in(bytes, first, last).await.map(|()| 0) })
            }
            "accept" => Box::pin(async move {
                pipe.accept().await;
                Ok(0)
            }),
            _ if n[1] > 127 => {
                // No number, no change; wider ones can't be asked of the Rust.
                if n[1] < 256 {
                    at_once(pipe.accept_set_address(n[1] as u8));
                }
                return done(0);
            }
            _ => {
                let address = n[1] as u8;
                Box::pin(async move {
                    pipe.accept_set_address(address).await;
                    Ok(0)
                })
            }
        };
        match poll(future.as_mut()) {
            Poll::Pending => {
                if old {
                    record::fault("an old stage began".into());
                }
                self.stages[usize::from(incoming)] = Some(Stage { future, generation, lent });
                done(0)
            }
            Poll::Ready(Err(error)) => refused(error_number(error)),
            Poll::Ready(Ok(_)) => {
                if !old {
                    record::fault("a stage ended at its begin".into());
                }
                refused("22")
            }
        }
    }

    fn take_stage(&mut self, incoming: bool, generation: u32, lent: (u32, u32), pattern: u32) -> Answer {
        let (ep0, current) = probe::device::control();
        let old = !probe::device::powered() || current != generation;
        let stage = &mut self.stages[usize::from(incoming)];
        let Some(running) = stage.as_mut().filter(|stage| stage.generation == generation) else {
            if !old && probe::device::done(incoming.into()) {
                record::fault("a stage is done that nobody began".into());
            }
            return refused(if old { "22" } else { "busy" });
        };
        assert!(incoming || running.lent == lent, "out of turn: other bytes were lent");
        if !incoming && !old {
            ram::fill(unsafe { ram::slice(ep0, 512) }, pattern);
        }
        let answer = match poll(running.future.as_mut()) {
            Poll::Pending => return refused("busy"),
            // Where the Rust says nothing, an old generation is 22 all the same.
            Poll::Ready(Ok(_)) if old => refused("22"),
            Poll::Ready(Ok(bytes)) => done(bytes),
            Poll::Ready(Err(error)) => refused(error_number(error)),
        };
        *stage = None;
        answer
    }
}
