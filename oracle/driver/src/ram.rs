//! The controller's RAM at its real addresses, and memory around it that it can't reach.
use std::ffi::c_void;

pub const START: usize = 0x200A_0000;
pub const END: usize = 0x2018_0000;
/// What is mapped: buffers of a caller may lie outside the RAM, or across its ends.
pub const FIRST: usize = 0x2000_0000;
pub const LAST: usize = 0x2028_0000;

extern "C" {
    fn mmap(address: *mut c_void, length: usize, protection: i32, flags: i32, file: i32, offset: i64) -> *mut c_void;
}

/// Maps it. Call once, before anything else.
pub fn map() {
    const READ_WRITE: i32 = 1 | 2;
    const PRIVATE_ANONYMOUS_FIXED_NOREPLACE: i32 = 0x02 | 0x20 | 0x10_0000;
    let got = unsafe { mmap(FIRST as *mut c_void, LAST - FIRST, READ_WRITE, PRIVATE_ANONYMOUS_FIXED_NOREPLACE, -1, 0) };
    if got as usize != FIRST {
        eprintln!("the addresses 0x20000000 to 0x20280000 can't be mapped here");
        std::process::exit(1);
    }
}

/// # Safety
/// Nothing else may use these bytes meanwhile. Panics outside the RAM.
pub unsafe fn slice(address: usize, length: usize) -> &'static mut [u8] {
    assert!(address >= START && address + length <= END);
    std::slice::from_raw_parts_mut(address as *mut u8, length)
}

/// # Safety
/// As above, for a caller's buffer. Panics outside what is mapped.
pub unsafe fn lent(address: u32, length: u32) -> &'static mut [u8] {
    let (address, length) = (address as usize, length as usize);
    assert!(address >= FIRST && address + length <= LAST, "out of turn: no such memory");
    std::slice::from_raw_parts_mut(address as *mut u8, length)
}

/// Byte i is the pattern plus 31 times i plus 17 times i / 256, modulo 256.
pub fn fill(bytes: &mut [u8], pattern: u32) {
    for (i, byte) in bytes.iter_mut().enumerate() {
        *byte = (pattern as usize + 31 * i + 17 * (i / 256)) as u8;
    }
}
