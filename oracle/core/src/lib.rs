//! `core` as it is, but for volatile access and the `nop` instruction, which are recorded.
#![no_std]
extern crate core as real;

pub use real::*;

pub mod ptr {
    pub use real::ptr::*;

    /// The only address that is read so is flash, and nothing is done with what it holds.
    ///
    /// # Safety
    /// Nothing is asked: memory isn't touched.
    pub unsafe fn read_volatile<T: Default>(from: *const T) -> T {
        record_read(from as usize);
        T::default()
    }

    /// # Safety
    /// As the original; places that overlap do no harm.
    pub unsafe fn copy_nonoverlapping(from: *const u8, to: *mut u8, count: usize) {
        let bytes = real::slice::from_raw_parts(from, count);
        match record::copied(from as usize, to as usize, bytes) {
            Some(setup) => real::ptr::copy(setup.as_ptr(), to, count),
            None => real::ptr::copy(from, to, count),
        }
    }

    fn record_read(address: usize) {
        if address == 0x0800_0000 {
            crate::aside("flash read");
        } else {
            crate::fault("volatile read elsewhere");
        }
    }

    /// # Safety
    /// Nothing is asked: memory isn't touched.
    pub unsafe fn write_volatile(to: *mut u32, value: u32) {
        if to as usize == 0x5003_C018 {
            crate::write("0x5003C018", value);
        } else {
            crate::fault("volatile write elsewhere");
        }
    }
}

pub mod arch {
    pub use crate::recorded_asm as asm;
}

#[macro_export]
macro_rules! recorded_asm {
    ("nop") => {
        $crate::nop()
    };
}

extern crate std;

fn aside(what: &str) {
    record::aside(what.into());
}

fn fault(what: &str) {
    record::fault(what.into());
}

fn write(register: &'static str, value: u32) {
    record::write(register, 0, &[record::Field { name: "all", index: None, value, clears: false }]);
}

/// # Safety
/// Nothing is asked; the original is unsafe, and its callers say so.
pub unsafe fn nop() {
    record::nop();
}
