//! ch32-hal's SuperSpeed device driver, compiled unchanged over stand-ins that record.
#![allow(dead_code)]

extern crate passed_core as core;

// One peripheral: the macro that the Rust calls goes over all of a chip.
macro_rules! foreach_peripheral {
    ($($pattern:tt => $code:tt;)*) => {
        macro_rules! each_peripheral {
            $($pattern => $code;)*
        }
        each_peripheral!(usbss, USBSS);
    };
}

pub mod calls;
pub mod device;
pub mod generator;
pub mod line;
pub mod listing;
pub mod pac;
pub mod parts;
pub mod ram;
pub mod readings;
pub mod words;

pub use parts::{_generated, interrupt, peripherals, rcc, signature, Peri, PeripheralType, RccPeripheral};

include!(concat!(env!("OUT_DIR"), "/root.rs"));
