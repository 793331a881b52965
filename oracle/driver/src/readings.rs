//! The readings of an interrupt: as lines of a script, and as what the registers hold.
use record::{Reading, SETUP_BYTES};

use crate::device::reading;
use crate::words::WORDS;

/// A kind of reading: its word, the register, its fields in a line's sequence, the largest number
/// of each that is in range.
struct Kind {
    word: &'static str,
    register: &'static str,
    fields: &'static [(&'static str, u32)],
}

/// A number above 1 is a set flag.
const FLAG: u32 = u32::MAX;
const ANY: u32 = u32::MAX;

const KINDS: [Kind; 10] = [
    Kind {
        word: "link_flags",
        register: "link_int_flag",
        fields: &[
            ("link_if_tx_lmp", FLAG),
            ("link_if_rx_lmp", FLAG),
            ("link_if_rx_lmp_tout", FLAG),
            ("link_if_state_chg", FLAG),
            ("link_if_warm_rst", FLAG),
            ("link_if_term_pres", FLAG),
            ("link_if_rx_set_fc", FLAG),
        ],
    },
    Kind {
        word: "link_status",
        register: "link_status",
        fields: &[("link_state", ANY), ("link_rx_term_pres", FLAG), ("link_rx_warm_rst", FLAG)],
    },
    Kind { word: "port_capability", register: "link_lmp_port_cap", fields: &[("force_pm", FLAG)] },
    Kind { word: "message_word", register: "link_lmp_rx_data", fields: &[("all", ANY)] },
    Kind {
        word: "transfer_status",
        register: "status",
        fields: &[
            ("udif_setup", FLAG),
            ("udif_status", FLAG),
            ("uif_transfer", FLAG),
            ("ep_id", 15),
            ("ep_dir", FLAG),
            ("uif_itp", FLAG),
            ("uif_rx_ping", FLAG),
            ("uif_fifo_txov", FLAG),
            ("uif_fifo_rxov", FLAG),
        ],
    },
    Kind {
        word: "setup_bytes",
        register: "setup",
        fields: &[
            (SETUP_BYTES[0], ANY),
            (SETUP_BYTES[1], ANY),
            (SETUP_BYTES[2], ANY),
            (SETUP_BYTES[3], ANY),
            (SETUP_BYTES[4], ANY),
            (SETUP_BYTES[5], ANY),
            (SETUP_BYTES[6], ANY),
            (SETUP_BYTES[7], ANY),
        ],
    },
    Kind { word: "ep0_length", register: "uep0_rx_ctrl", fields: &[("ep0_rx_len", 512)] },
    Kind { word: "ep0_sequence", register: "uep0_tx_ctrl", fields: &[("ep0_tx_seq", 31)] },
    Kind { word: "chain_packets", register: "rx.chain_nump", fields: &[("all", 255)] },
    Kind { word: "last_length", register: "rx.chain_len", fields: &[("len", 65535)] },
];

/// The words, in document 01's sequence.
pub fn words() -> [&'static str; 10] {
    KINDS.map(|kind| kind.word)
}

/// What a read of this register awaits.
pub fn awaited(register: &str) -> &'static str {
    KINDS.iter().find(|kind| kind.register == register).expect("a register that no reading has").word
}

/// The reading of a line, for the index that was asked for; none if a number is out of range.
pub fn read(word: &str, index: u32, numbers: &[u32]) -> Option<Reading> {
    let kind = KINDS.iter().find(|kind| kind.word == word).unwrap();
    let of_the_word = WORDS.iter().find(|known| known.0 == word).unwrap().1.len();
    assert_eq!(kind.fields.len(), of_the_word, "the two tables of {word} differ");
    let mut fields = Vec::new();
    for ((name, largest), number) in kind.fields.iter().zip(numbers) {
        if number > largest {
            return None;
        }
        // States of the link that have no name are one.
        let number = if *name == "link_state" && *number > 8 { 0 } else { *number };
        fields.push((*name, number));
    }
    Some(reading(kind.register, index as usize, &fields))
}
