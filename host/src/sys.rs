//! The C interface as it is linked; include/binlariat.h says each call's rule.

extern "C" {
    pub fn binlariat_cut_store(
        store: *const u8,
        store_len: usize,
        pairs: *const u32,
        pairs_len: usize,
        keep_empty: u32,
        work: *mut u32,
        work_len: usize,
        out: *mut u8,
        out_len: usize,
        written: *mut usize,
    ) -> u32;

    pub fn binlariat_cut_hvar(
        table: *const u8,
        table_len: usize,
        glyphs: *const u32,
        glyphs_len: usize,
        work: *mut u32,
        work_len: usize,
        out: *mut u8,
        out_len: usize,
        written: *mut usize,
    ) -> u32;

    pub fn binlariat_cut_vvar(
        table: *const u8,
        table_len: usize,
        glyphs: *const u32,
        glyphs_len: usize,
        work: *mut u32,
        work_len: usize,
        out: *mut u8,
        out_len: usize,
        written: *mut usize,
    ) -> u32;

    pub fn binlariat_read_delta(
        store: *const u8,
        store_len: usize,
        outer: u32,
        inner: u32,
        column: u32,
        delta: *mut i32,
    ) -> u32;

    pub fn binlariat_read_row(
        store: *const u8,
        store_len: usize,
        outer: u32,
        inner: u32,
        start: *mut usize,
        len: *mut usize,
    ) -> u32;

    pub fn binlariat_read_entry(map: *const u8, map_len: usize, glyph: u32, outer: *mut u32, inner: *mut u32) -> u32;
}
