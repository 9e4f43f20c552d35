//! Cuts OpenType item variation stores, HVAR and VVAR tables to the rows that are kept.
//!
//! The work is done by a library that is proved against its rules; this crate lends it memory.
//!
//! ```
//! use binlariat::{cut_store, read_delta, Pair, Refusal};
//!
//! let store = [
//!     0, 1, 0, 0, 0, 12, 0, 1, 0, 0, 0, 22, // format 1, region list at 12, one subtable at 22
//!     0, 1, 0, 1, 0, 0, 64, 0, 64, 0, // one axis, one region
//!     0, 2, 0, 0, 0, 1, 0, 0, 5, 7, // two rows of one narrow column
//! ];
//! let cut = cut_store(&store, &[Pair { outer: 0, inner: 1 }], false)?;
//! assert_eq!(read_delta(&cut, 0, 0, 0)?, 7);
//! assert_eq!(cut_store(&store[..7], &[], false), Err(Refusal::BadStore));
//! # Ok::<(), Refusal>(())
//! ```

pub mod lent;
mod refusal;
pub mod sys;

pub use lent::WORK;
pub use refusal::Refusal;

/// A row of a store: the number of its subtable, and its number there.
#[derive(Clone, Copy, Debug, PartialEq, Eq, Hash)]
pub struct Pair {
    pub outer: u16,
    pub inner: u16,
}

impl Pair {
    /// The pair as a list holds it.
    pub fn packed(self) -> u32 {
        (self.outer as u32) << 16 | self.inner as u32
    }
}

/// A kept glyph: its id in the new font, and its id in the old one.
#[derive(Clone, Copy, Debug, PartialEq, Eq, Hash)]
pub struct Glyph {
    pub new: u16,
    pub old: u16,
}

impl Glyph {
    /// The glyph as a list holds it.
    pub fn packed(self) -> u32 {
        (self.new as u32) << 16 | self.old as u32
    }
}

/// Memory for cuts, kept from one to the next.
pub struct Cutter {
    work: Vec<u32>,
    out: Vec<u8>,
}

impl Default for Cutter {
    fn default() -> Self {
        Self { work: vec![0; WORK], out: Vec::new() }
    }
}

impl Cutter {
    /// Cuts a store: the rows of `pairs` alone, their outers not falling, none twice.
    ///
    /// With `keep_empty` a result without any delta is written too, else it is refused.
    pub fn store(&mut self, store: &[u8], pairs: &[Pair], keep_empty: bool) -> Result<&[u8], Refusal> {
        let list: Vec<u32> = pairs.iter().map(|p| p.packed()).collect();
        self.grow(store.len(), |work, out, written| lent::cut_store(store, &list, keep_empty, work, out, written))
    }

    /// Cuts an HVAR table: its maps and store speak of `glyphs` alone, whose new ids rise.
    pub fn hvar(&mut self, table: &[u8], glyphs: &[Glyph]) -> Result<&[u8], Refusal> {
        let list: Vec<u32> = glyphs.iter().map(|g| g.packed()).collect();
        self.grow(table.len(), |work, out, written| lent::cut_hvar(table, &list, work, out, written))
    }

    /// Cuts a VVAR table, as `hvar` does an HVAR table.
    pub fn vvar(&mut self, table: &[u8], glyphs: &[Glyph]) -> Result<&[u8], Refusal> {
        let list: Vec<u32> = glyphs.iter().map(|g| g.packed()).collect();
        self.grow(table.len(), |work, out, written| lent::cut_vvar(table, &list, work, out, written))
    }

    /// Calls with room for as many bytes as came in, and again with twice the room while that is too little.
    fn grow(&mut self, room: usize, cut: impl Fn(&mut [u32], &mut [u8], &mut usize) -> u32) -> Result<&[u8], Refusal> {
        let mut room = room.max(64);
        loop {
            if self.out.len() < room {
                self.out.resize(room, 0);
            }
            let mut written = 0;
            match answer(cut(&mut self.work, &mut self.out, &mut written)) {
                Ok(()) => return Ok(&self.out[..written]),
                Err(Refusal::ShortOutput) => room = 2 * self.out.len(),
                Err(refusal) => return Err(refusal),
            }
        }
    }
}

/// Cuts a store, as [`Cutter::store`] does, with memory of its own.
pub fn cut_store(store: &[u8], pairs: &[Pair], keep_empty: bool) -> Result<Vec<u8>, Refusal> {
    Cutter::default().store(store, pairs, keep_empty).map(<[u8]>::to_vec)
}

/// Cuts an HVAR table, as [`Cutter::hvar`] does, with memory of its own.
pub fn cut_hvar(table: &[u8], glyphs: &[Glyph]) -> Result<Vec<u8>, Refusal> {
    Cutter::default().hvar(table, glyphs).map(<[u8]>::to_vec)
}

/// Cuts a VVAR table, as [`Cutter::vvar`] does, with memory of its own.
pub fn cut_vvar(table: &[u8], glyphs: &[Glyph]) -> Result<Vec<u8>, Refusal> {
    Cutter::default().vvar(table, glyphs).map(<[u8]>::to_vec)
}

/// Reads one delta of a store: 0 where the row or the column is past its count.
pub fn read_delta(store: &[u8], outer: u32, inner: u32, column: u32) -> Result<i32, Refusal> {
    let mut delta = 0;
    answer(lent::read_delta(store, outer, inner, column, &mut delta)).map(|()| delta)
}

/// Reads one row of a store, as a part of it: empty where the row is past the count or has no column.
pub fn read_row(store: &[u8], outer: u32, inner: u32) -> Result<&[u8], Refusal> {
    let (mut start, mut len) = (0, 0);
    answer(lent::read_row(store, outer, inner, &mut start, &mut len)).map(|()| &store[start..start + len])
}

/// Reads one glyph's outer and inner from a map; a glyph past the map's count has the last entry's.
pub fn read_entry(map: &[u8], glyph: u32) -> Result<(u32, u32), Refusal> {
    let (mut outer, mut inner) = (0, 0);
    answer(lent::read_entry(map, glyph, &mut outer, &mut inner)).map(|()| (outer, inner))
}

fn answer(number: u32) -> Result<(), Refusal> {
    match number {
        0 => Ok(()),
        _ => Err(Refusal::numbered(number).expect("a number that document 01 lists")),
    }
}
