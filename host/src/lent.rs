//! The calls over lent memory: slices for C's pointers and lengths, and document 01's numbers.
//!
//! Nothing is allocated here. A call gives 0 or the refusal's number. After every cut but a refusal 1 the
//! first 16,384 numbers of `work` are 0, and of `out` only the first `written` bytes have changed.

use crate::sys;

/// The numbers that a cut needs as its work area.
pub const WORK: usize = 16_384;

/// Cuts a store to pairs, each outer × 65,536 + inner.
pub fn cut_store(
    store: &[u8],
    pairs: &[u32],
    keep_empty: bool,
    work: &mut [u32],
    out: &mut [u8],
    written: &mut usize,
) -> u32 {
    // SAFETY: each pointer comes with the length of the slice that it is of.
    unsafe {
        sys::binlariat_cut_store(
            store.as_ptr(),
            store.len(),
            pairs.as_ptr(),
            pairs.len(),
            keep_empty as u32,
            work.as_mut_ptr(),
            work.len(),
            out.as_mut_ptr(),
            out.len(),
            written,
        )
    }
}

/// Cuts an HVAR table to glyphs, each new × 65,536 + old.
pub fn cut_hvar(table: &[u8], glyphs: &[u32], work: &mut [u32], out: &mut [u8], written: &mut usize) -> u32 {
    // SAFETY: each pointer comes with the length of the slice that it is of.
    unsafe {
        sys::binlariat_cut_hvar(
            table.as_ptr(),
            table.len(),
            glyphs.as_ptr(),
            glyphs.len(),
            work.as_mut_ptr(),
            work.len(),
            out.as_mut_ptr(),
            out.len(),
            written,
        )
    }
}

/// Cuts a VVAR table to glyphs, each new × 65,536 + old.
pub fn cut_vvar(table: &[u8], glyphs: &[u32], work: &mut [u32], out: &mut [u8], written: &mut usize) -> u32 {
    // SAFETY: each pointer comes with the length of the slice that it is of.
    unsafe {
        sys::binlariat_cut_vvar(
            table.as_ptr(),
            table.len(),
            glyphs.as_ptr(),
            glyphs.len(),
            work.as_mut_ptr(),
            work.len(),
            out.as_mut_ptr(),
            out.len(),
            written,
        )
    }
}

/// Reads one delta of a store.
pub fn read_delta(store: &[u8], outer: u32, inner: u32, column: u32, delta: &mut i32) -> u32 {
    // SAFETY: the pointer comes with its slice's length.
    unsafe { sys::binlariat_read_delta(store.as_ptr(), store.len(), outer, inner, column, delta) }
}

/// Finds one row of a store: its place and its length.
pub fn read_row(store: &[u8], outer: u32, inner: u32, start: &mut usize, len: &mut usize) -> u32 {
    // SAFETY: the pointer comes with its slice's length.
    unsafe { sys::binlariat_read_row(store.as_ptr(), store.len(), outer, inner, start, len) }
}

/// Reads one glyph's pair from a map.
pub fn read_entry(map: &[u8], glyph: u32, outer: &mut u32, inner: &mut u32) -> u32 {
    // SAFETY: the pointer comes with its slice's length.
    unsafe { sys::binlariat_read_entry(map.as_ptr(), map.len(), glyph, outer, inner) }
}
