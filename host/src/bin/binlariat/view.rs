//! A store, a table or a map opened for showing. What can be refused is asked of the library where it has a reader for it.

use crate::input::number;
use binlariat::{read_delta, read_entry, Refusal};

pub struct Store<'a> {
    pub bytes: &'a [u8],
    pub subtables: usize,
}

/// Regions, three F2DOT14 numbers an axis.
pub struct Regions<'a> {
    pub place: usize,
    pub axes: usize,
    pub count: usize,
    records: &'a [u8],
}

pub struct Subtable {
    pub place: usize,
    pub rows: usize,
    pub long: bool,
    pub words: usize,
    pub regions: Vec<usize>,
}

impl<'a> Store<'a> {
    pub fn open(bytes: &'a [u8]) -> Result<Self, Refusal> {
        match read_delta(bytes, 0, 0, 0) {
            Err(Refusal::BadStore) => Err(Refusal::BadStore),
            _ => Ok(Self { bytes, subtables: self::cell(bytes, 6, 2) }),
        }
    }

    /// The region list; `None` where its offset is 0.
    pub fn regions(&self) -> Result<Option<Regions<'a>>, Refusal> {
        let place = cell(self.bytes, 2, 4);
        if place == 0 {
            return Ok(None);
        }
        let read = || {
            let (axes, count) = (number(self.bytes, place, 2)?, number(self.bytes, place + 2, 2)?);
            let records = self.bytes.get(place + 4..place + 4 + 6 * axes * count)?;
            Some(Regions { place, axes, count, records })
        };
        read().filter(|list| list.count <= 4096).map(Some).ok_or(Refusal::BadRegions)
    }

    pub fn subtable(&self, outer: usize) -> Result<Subtable, Refusal> {
        read_delta(self.bytes, outer as u32, 0, 0)?;
        let place = cell(self.bytes, 8 + 4 * outer, 4);
        let field = cell(self.bytes, place + 2, 2);
        let columns = cell(self.bytes, place + 4, 2);
        Ok(Subtable {
            place,
            rows: cell(self.bytes, place, 2),
            long: field & 0x8000 != 0,
            words: field & 0x7FFF,
            regions: (0..columns).map(|column| cell(self.bytes, place + 6 + 2 * column, 2)).collect(),
        })
    }

    pub fn delta(&self, outer: usize, inner: usize, column: usize) -> Result<i32, Refusal> {
        read_delta(self.bytes, outer as u32, inner as u32, column as u32)
    }
}

impl Regions<'_> {
    /// Start, peak and end of an axis of a region.
    pub fn axis(&self, region: usize, axis: usize) -> [f64; 3] {
        [0, 1, 2].map(|which| {
            let bits = cell(self.records, 6 * (region * self.axes + axis) + 2 * which, 2);
            f64::from(bits as u16 as i16) / 16384.0
        })
    }
}

pub struct Map<'a> {
    pub place: usize,
    pub format: usize,
    pub entry_bytes: usize,
    pub inner_bits: usize,
    pub count: usize,
    bytes: &'a [u8],
}

impl Map<'_> {
    pub fn entry(&self, glyph: usize) -> Result<(u32, u32), Refusal> {
        read_entry(self.bytes, glyph as u32)
    }
}

pub struct Table<'a> {
    bytes: &'a [u8],
    pub version: (usize, usize),
}

impl<'a> Table<'a> {
    pub fn open(bytes: &'a [u8], maps: usize) -> Result<Self, Refusal> {
        if bytes.len() < 8 + 4 * maps || cell(bytes, 0, 2) != 1 {
            return Err(Refusal::BadHeader);
        }
        Ok(Self { bytes, version: (1, cell(bytes, 2, 2)) })
    }

    /// The store and its place; `None` where its offset is 0.
    pub fn store(&self) -> Result<Option<(usize, Store<'a>)>, Refusal> {
        let place = cell(self.bytes, 4, 4);
        if place == 0 {
            return Ok(None);
        }
        let bytes = self.bytes.get(place..).ok_or(Refusal::BadStore)?;
        Ok(Some((place, Store::open(bytes)?)))
    }

    /// A map; `None` where its offset is 0.
    pub fn map(&self, which: usize) -> Result<Option<Map<'a>>, Refusal> {
        let place = cell(self.bytes, 8 + 4 * which, 4);
        if place == 0 {
            return Ok(None);
        }
        let bytes = self.bytes.get(place..).ok_or(Refusal::BadMap)?;
        read_entry(bytes, 0)?;
        let (format, entry) = (cell(bytes, 0, 1), cell(bytes, 1, 1));
        let count = cell(bytes, 2, if format == 0 { 2 } else { 4 });
        let (entry_bytes, inner_bits) = ((entry >> 4 & 3) + 1, (entry & 15) + 1);
        Ok(Some(Map { place, format, entry_bytes, inner_bits, count, bytes }))
    }
}

/// A number that is known to lie inside.
fn cell(bytes: &[u8], place: usize, size: usize) -> usize {
    number(bytes, place, size).expect("a place that was checked")
}
