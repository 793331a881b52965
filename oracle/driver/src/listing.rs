//! What the Rust says to a line of the listing's input.
use crate::device::{Transfer, Way};
use crate::line;
use record::Entry;

pub const HEADER: &str = "kind\tregister\tindex\tfield\tvalue";
/// For a line that the port has to refuse.
pub const SKIP: &str = "skip";

/// Operations and faults; readings aren't listed, and the board has no part in a transfer.
fn lines(transfer: &Transfer, way: Way, differs: bool) -> Vec<String> {
    record::set_differs(differs);
    let (entries, progress) = transfer.entries(way);
    let mut lines = Vec::new();
    for entry in entries {
        match entry {
            Entry::Operation(record) => lines.push(record.to_string()),
            Entry::Asked(..) | Entry::Copied(..) => {}
            Entry::Aside(what) | Entry::Fault(what) => lines.push(format!("fault\t{what}")),
        }
    }
    lines.push(format!("0\tdone\t{}\tprogress\t{progress}", transfer.endpoint));
    lines
}

/// The lines to print. A window that stands already, and the public call where there is one,
/// must come to the same; if not, a line `fault` stands before.
pub fn answer(text: &[u8]) -> Vec<String> {
    let Some(transfer) = line::accepted(text) else {
        return vec![SKIP.into()];
    };
    let told = lines(&transfer, Way::Run, true);
    let mut faults = Vec::new();
    if lines(&transfer, Way::Run, false) != told {
        faults.push("fault\tother records where the window stands".into());
    }
    if transfer.has_public_way() && lines(&transfer, Way::Public, true) != told {
        faults.push("fault\tother records by the public call".into());
    }
    faults.extend(told);
    faults
}
