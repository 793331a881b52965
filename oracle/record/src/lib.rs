//! What the Rust does, in sequence: register operations by name, readings asked for, and the
//! things that the port leaves to the board (clocks, interrupts, microseconds).
use std::cell::RefCell;
use std::collections::VecDeque;
use std::fmt;

/// One record of document 01, by name.
#[derive(Clone, Debug, PartialEq, Eq)]
pub struct Record {
    pub kind: u32,
    pub register: &'static str,
    pub index: u32,
    pub field: &'static str,
    pub value: u32,
}

impl fmt::Display for Record {
    fn fmt(&self, out: &mut fmt::Formatter) -> fmt::Result {
        write!(out, "{}\t{}\t{}\t{}\t{}", self.kind, self.register, self.index, self.field, self.value)
    }
}

#[derive(Clone, Debug, PartialEq, Eq)]
pub enum Entry {
    Operation(Record),
    /// A register was read; the answer came from the script.
    Asked(&'static str, u32),
    /// Bytes were copied: from, to, how many, and their sum.
    Copied(usize, usize, usize, u32),
    /// Left to the board by the port.
    Aside(String),
    /// The Rust did what no record can say, or read what the script didn't foresee.
    Fault(String),
}

/// A field that was set. An index of its own is for the enable bits.
#[derive(Clone, Debug)]
pub struct Field {
    pub name: &'static str,
    pub index: Option<u32>,
    pub value: u32,
    /// The bits of `value` are cleared, the others stay.
    pub clears: bool,
}

/// The answer to a read: field `all` is the whole register; fields not named are 0.
#[derive(Clone, Debug)]
pub struct Reading {
    pub register: &'static str,
    pub index: u32,
    pub fields: Vec<(&'static str, u32)>,
}

#[derive(Default)]
struct Log {
    entries: Vec<Entry>,
    readings: VecDeque<Reading>,
    /// The handler runs in a conversation: where readings run out it is cut off.
    conversing: bool,
    /// Whether a compared field has another value than the one it is compared with.
    differs: bool,
    /// The modify that a comparison has to be followed by.
    due: Option<Record>,
    revision: u8,
}

thread_local! {
    static LOG: RefCell<Log> = RefCell::new(Log::default());
}

fn with<R>(f: impl FnOnce(&mut Log) -> R) -> R {
    LOG.with(|log| f(&mut log.borrow_mut()))
}

impl Log {
    fn push(&mut self, entry: Entry) {
        if let Some(due) = self.due.take() {
            self.entries.push(Entry::Fault(format!("compared, not modified: {due}")));
        }
        self.entries.push(entry);
    }

    fn operation(&mut self, kind: u32, register: &'static str, index: u32, field: &'static str, value: u32) {
        self.push(Entry::Operation(Record { kind, register, index, field, value }));
    }
}

pub fn write(register: &'static str, index: u32, fields: &[Field]) {
    with(|log| {
        if fields.is_empty() {
            log.operation(1, register, index, "all", 0);
        }
        for (at, field) in fields.iter().enumerate() {
            if field.clears {
                log.push(Entry::Fault(format!("bits kept in a write: {register} {}", field.name)));
            }
            let kind = if at == 0 { 1 } else { 2 };
            log.operation(kind, register, field.index.unwrap_or(index), field.name, field.value);
        }
    })
}

pub fn modify(register: &'static str, index: u32, fields: &[Field]) {
    with(|log| {
        if let (Some(due), [field]) = (&log.due, fields) {
            let same = (due.register, due.index, due.field, due.value) == (register, index, field.name, field.value);
            if same && !field.clears {
                log.due = None;
                return;
            }
        }
        if fields.is_empty() {
            log.push(Entry::Fault(format!("modify of no field: {register}")));
        }
        for (at, field) in fields.iter().enumerate() {
            if field.clears && fields.len() > 1 {
                log.push(Entry::Fault(format!("bits cleared beside others: {register} {}", field.name)));
            }
            let kind = if field.clears {
                6
            } else if at == 0 {
                3
            } else {
                2
            };
            log.operation(kind, register, field.index.unwrap_or(index), field.name, field.value);
        }
    })
}

/// A field was compared with `value`; says whether they are equal.
pub fn compare(register: &'static str, index: u32, field: &'static str, value: u32) -> bool {
    with(|log| {
        log.operation(4, register, index, field, value);
        if log.differs {
            log.due = Some(Record { kind: 4, register, index, field, value });
        }
        !log.differs
    })
}

/// One cycle of waiting; those in a row are one record.
pub fn nop() {
    with(|log| {
        if let (None, Some(Entry::Operation(last))) = (&log.due, log.entries.last_mut()) {
            if last.kind == 5 {
                last.value += 1;
                return;
            }
        }
        log.operation(5, "delay", 0, "cycles", 1);
    })
}

/// What the handler is cut off with.
pub struct Cut;

/// Takes the next reading of the script, which must be of this register.
pub fn read(register: &'static str, index: u32) -> Vec<(&'static str, u32)> {
    let fields = with(|log| {
        log.push(Entry::Asked(register, index));
        match log.readings.pop_front() {
            Some(reading) if (reading.register, reading.index) == (register, index) => Some(reading.fields),
            None if log.conversing => None,
            other => {
                log.push(Entry::Fault(format!("read {register} {index}, script has {other:?}")));
                Some(Vec::new())
            }
        }
    });
    // Outside the log, which is used again afterwards.
    fields.unwrap_or_else(|| std::panic::resume_unwind(Box::new(Cut)))
}

pub const SETUP_BYTES: [&str; 8] = ["b0", "b1", "b2", "b3", "b4", "b5", "b6", "b7"];

/// Bytes are copied. In a conversation that is the SETUP, which is a reading of its own: gives
/// the bytes that stand there.
pub fn copied(from: usize, to: usize, bytes: &[u8]) -> Option<[u8; 8]> {
    if !with(|log| log.conversing) {
        if !bytes.is_empty() {
            with(|log| log.push(Entry::Copied(from, to, bytes.len(), sum(bytes))));
        }
        return None;
    }
    if bytes.len() != 8 {
        fault(format!("{} bytes copied in an interrupt", bytes.len()));
        return None;
    }
    let fields = read("setup", 0);
    Some(SETUP_BYTES.map(|name| fields.iter().find(|f| f.0 == name).map_or(0, |f| f.1 as u8)))
}

/// Of bytes, so that they needn't be printed: times 31, plus the next, modulo 2^32.
pub fn sum(bytes: &[u8]) -> u32 {
    bytes.iter().fold(0, |sum: u32, byte| sum.wrapping_mul(31).wrapping_add((*byte).into()))
}

/// Runs the handler with these readings; says whether it ended.
pub fn converse(readings: Vec<Reading>, handler: impl FnOnce()) -> bool {
    with(|log| {
        log.readings = readings.into();
        log.conversing = true;
    });
    let ended = std::panic::catch_unwind(std::panic::AssertUnwindSafe(handler));
    with(|log| {
        log.conversing = false;
        if !log.readings.is_empty() {
            log.push(Entry::Fault("readings left".into()));
            log.readings.clear();
        }
    });
    match ended {
        Ok(()) => true,
        Err(thrown) if thrown.is::<Cut>() => false,
        Err(thrown) => std::panic::resume_unwind(thrown),
    }
}

pub fn aside(what: String) {
    with(|log| log.push(Entry::Aside(what)))
}

pub fn fault(what: String) {
    with(|log| log.push(Entry::Fault(what)))
}

pub fn set_readings(readings: Vec<Reading>) {
    with(|log| log.readings = readings.into())
}

pub fn readings_left() -> usize {
    with(|log| log.readings.len())
}

pub fn set_differs(differs: bool) {
    with(|log| log.differs = differs)
}

pub fn set_revision(revision: u8) {
    with(|log| log.revision = revision)
}

pub fn revision() -> u8 {
    with(|log| log.revision)
}

/// The entries since the last call.
pub fn take() -> Vec<Entry> {
    with(|log| {
        if let Some(due) = log.due.take() {
            log.entries.push(Entry::Fault(format!("compared, not modified: {due}")));
        }
        std::mem::take(&mut log.entries)
    })
}
