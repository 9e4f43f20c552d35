//! Big-endian numbers in bytes.

/// The number of `size` bytes at a place; `None` where it isn't wholly inside.
pub fn number(bytes: &[u8], place: usize, size: usize) -> Option<usize> {
    let cell = bytes.get(place..place.checked_add(size)?)?;
    Some(cell.iter().fold(0, |n, byte| n << 8 | *byte as usize))
}

pub fn put(bytes: &mut Vec<u8>, number: usize, size: usize) {
    bytes.extend_from_slice(&number.to_be_bytes()[8 - size..]);
}

pub fn set(bytes: &mut [u8], place: usize, number: usize, size: usize) {
    bytes[place..place + size].copy_from_slice(&number.to_be_bytes()[8 - size..]);
}

pub fn hex(bytes: &[u8]) -> String {
    bytes.iter().map(|byte| format!("{byte:02X}")).collect::<Vec<_>>().join(" ")
}
