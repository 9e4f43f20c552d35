//! Stores, maps and tables as plain values, and their bytes.

use crate::bytes::{put, set};

#[derive(Clone)]
pub struct Subtable {
    pub long: bool,
    pub words: usize,
    pub regions: Vec<usize>,
    pub rows: Vec<Vec<i64>>,
}

impl Subtable {
    pub fn bytes(&self) -> Vec<u8> {
        let mut out = Vec::new();
        put(&mut out, self.rows.len(), 2);
        put(&mut out, self.words | if self.long { 0x8000 } else { 0 }, 2);
        put(&mut out, self.regions.len(), 2);
        self.regions.iter().for_each(|region| put(&mut out, *region, 2));
        let narrow = if self.long { 2 } else { 1 };
        for row in &self.rows {
            for (column, delta) in row.iter().enumerate() {
                put(&mut out, *delta as usize, if column < self.words { 2 * narrow } else { narrow });
            }
        }
        out
    }
}

#[derive(Clone)]
pub struct Store {
    pub axes: usize,
    pub regions: usize,
    pub subtables: Vec<Subtable>,
}

impl Store {
    /// Bytes that tell every region record from every other, as far as there are axes.
    pub fn region_list(&self) -> Vec<u8> {
        let mut out = Vec::new();
        put(&mut out, self.axes, 2);
        put(&mut out, self.regions, 2);
        for cell in 0..self.regions * self.axes * 3 {
            put(&mut out, cell + 1, 2);
        }
        out
    }

    /// Header, region list, subtables in order.
    pub fn bytes(&self) -> Vec<u8> {
        let mut out = Vec::new();
        put(&mut out, 1, 2);
        put(&mut out, 8 + 4 * self.subtables.len(), 4);
        put(&mut out, self.subtables.len(), 2);
        out.resize(8 + 4 * self.subtables.len(), 0);
        out.extend(self.region_list());
        for (i, subtable) in self.subtables.iter().enumerate() {
            let at = out.len();
            set(&mut out, 8 + 4 * i, at, 4);
            out.extend(subtable.bytes());
        }
        out
    }
}

#[derive(Clone)]
pub struct Map {
    pub format: usize,
    pub entry_bytes: usize,
    pub inner_bits: usize,
    pub entries: Vec<usize>,
}

impl Map {
    pub fn bytes(&self) -> Vec<u8> {
        let mut out = Vec::new();
        put(&mut out, self.format, 1);
        put(&mut out, (self.entry_bytes - 1) << 4 | (self.inner_bits - 1), 1);
        put(&mut out, self.entries.len(), if self.format == 0 { 2 } else { 4 });
        self.entries.iter().for_each(|entry| put(&mut out, *entry, self.entry_bytes));
        out
    }
}

/// A table: header, store, maps in order; `None` for an absent map.
pub fn table(store: &[u8], maps: &[Option<Map>]) -> Vec<u8> {
    let mut out = Vec::new();
    put(&mut out, 0x0001_0000, 4);
    put(&mut out, 8 + 4 * maps.len(), 4);
    out.resize(8 + 4 * maps.len(), 0);
    out.extend(store);
    for (i, map) in maps.iter().enumerate() {
        if let Some(map) = map {
            let at = out.len();
            set(&mut out, 8 + 4 * i, at, 4);
            out.extend(map.bytes());
        }
    }
    out
}
