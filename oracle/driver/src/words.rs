//! The words of a script, and which lines can be read (docs/REPLAY.md).
use crate::line::number;

const ANY: u32 = u32::MAX;
/// As many bytes as a send or receive is lent at most.
pub const LENT: u32 = 65536;

/// Each word with its numbers: for each the largest that can be read.
pub const WORDS: [(&str, &[u32]); 40] = [
    ("driver", &[ANY; 2]),
    ("allocate", &[ANY, ANY, ANY, 15, 3, 65535, 255, 255, 65535, 255]),
    ("start", &[65535]),
    ("on", &[ANY]),
    ("off", &[]),
    ("enable", &[ANY; 3]),
    ("stall", &[ANY; 3]),
    ("stalled", &[ANY; 2]),
    ("enabled", &[ANY; 2]),
    ("raise", &[ANY]),
    ("poll", &[]),
    ("reset", &[]),
    ("wakeup", &[]),
    ("begin", &[ANY; 5]),
    ("take", &[ANY; 2]),
    ("abandon", &[ANY; 2]),
    ("report", &[ANY; 4]),
    ("move", &[ANY, ANY, ANY, ANY, LENT, ANY, ANY]),
    ("next", &[ANY, ANY, ANY, ANY, LENT, ANY, ANY, ANY]),
    ("setup", &[]),
    ("data_out", &[ANY; 3]),
    ("take_out", &[ANY; 4]),
    ("data_in", &[ANY; 6]),
    ("accept", &[ANY]),
    ("accept_address", &[ANY; 2]),
    ("take_in", &[ANY]),
    ("reject", &[ANY]),
    ("generation", &[ANY]),
    ("interrupt", &[]),
    ("link_flags", &[ANY; 7]),
    ("link_status", &[ANY; 3]),
    ("port_capability", &[ANY]),
    ("message_word", &[ANY]),
    ("transfer_status", &[ANY; 9]),
    ("setup_bytes", &[255; 8]),
    ("ep0_length", &[ANY]),
    ("ep0_sequence", &[ANY]),
    ("chain_packets", &[ANY]),
    ("last_length", &[ANY]),
    ("state", &[]),
];

/// Room for the numbers of any word; those left out are 0.
pub type Numbers = [u32; 10];

/// A line without its line feed: its word and numbers, or none if it can't be read.
pub fn read(line: &[u8]) -> Option<(&'static str, Numbers)> {
    if line.len() >= 4096 {
        return None;
    }
    let mut parts = line.split(|byte| *byte == b'\t');
    let first = parts.next()?;
    let (word, largest) = WORDS.iter().find(|(word, _)| word.as_bytes() == first)?;
    let mut numbers = Numbers::default();
    for (at, text) in parts.enumerate() {
        let read = number(text)?;
        if read > *largest.get(at)? {
            return None;
        }
        numbers[at] = read;
    }
    Some((word, numbers))
}
