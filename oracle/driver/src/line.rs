//! A line of the listing's input, read and judged by document 01's words.
use crate::device::Transfer;
use crate::ram;

/// Numbers of any length; those of 2^32 and more can't be read.
pub fn number(text: &[u8]) -> Option<u32> {
    if text.is_empty() || !text.iter().all(u8::is_ascii_digit) {
        return None;
    }
    let first = text.iter().position(|digit| *digit != b'0').unwrap_or(text.len() - 1);
    std::str::from_utf8(&text[first..]).unwrap().parse().ok()
}

/// The seven parts, if the line can be read.
fn parts(line: &[u8]) -> Option<(bool, [u32; 5], bool)> {
    if line.len() >= 4096 {
        return None;
    }
    let parts: Vec<&[u8]> = line.split(|byte| *byte == b'\t').collect();
    let [direction, endpoint, size, own, address, length, flag] = parts[..] else {
        return None;
    };
    let incoming = match direction {
        b"in" => true,
        b"out" => false,
        _ => return None,
    };
    let flag = match number(flag)? {
        0 => false,
        1 => true,
        _ => return None,
    };
    let numbers = [number(endpoint)?, number(size)?, number(own)?, number(address)?, number(length)?];
    Some((incoming, numbers, flag))
}

pub fn in_ram(address: u32, length: u32) -> bool {
    address as usize >= ram::START && address as usize + length as usize <= ram::END && address % 4 == 0
}

/// The transfer that a line asks for, unless the line can't be read, or 7, 26 or 8 is due.
pub fn accepted(line: &[u8]) -> Option<Transfer> {
    let (incoming, [endpoint, size, own, address, length], flag) = parts(line)?;
    let of_the_endpoint = (1..=7).contains(&endpoint);
    let sound = (1..=1024).contains(&size) && in_ram(own, size);
    if !of_the_endpoint || !sound || !in_ram(address, length) {
        return None;
    }
    if !incoming && (length == 0 || length % size != 0) {
        return None;
    }
    Some(Transfer {
        incoming,
        endpoint: endpoint as usize,
        size: size as usize,
        own: own as usize,
        address: address as usize,
        length: length as usize,
        flag,
    })
}
