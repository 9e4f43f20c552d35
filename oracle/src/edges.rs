//! Calls at document 01's limits and thresholds, on both sides of each, with the number it gives (0: written).

use crate::call::{Call, Kind};
use crate::shape::{table, Map, Store, Subtable};

pub struct Edge {
    pub what: String,
    pub call: Call,
    pub number: u32,
}

const KEEP: Kind = Kind::Store { keep_empty: true };

pub fn edges() -> Vec<Edge> {
    let mut all = Vec::new();
    limits(&mut all);
    ids(&mut all);
    thresholds(&mut all);
    entries(&mut all);
    most_pairs(&mut all);
    all
}

fn edge(all: &mut Vec<Edge>, what: String, kind: Kind, bytes: Vec<u8>, list: Vec<u32>, number: u32) {
    all.push(Edge { what, call: Call { kind, bytes, list }, number });
}

/// A store of one subtable with these columns and rows, every delta 1, over this many regions.
fn plain(columns: usize, rows: usize, regions: usize) -> Store {
    let regions_named = (0..columns).map(|column| column % regions.max(1)).collect();
    let subtable = Subtable { long: false, words: 0, regions: regions_named, rows: vec![vec![1; columns]; rows] };
    Store { axes: 1, regions, subtables: vec![subtable] }
}

/// One below, at, and one above: the last with the number of its refusal.
fn around(limit: usize, number: u32) -> [(usize, u32); 3] {
    [(limit - 1, 0), (limit, 0), (limit + 1, number)]
}

fn limits(all: &mut Vec<Edge>) {
    for (many, number) in around(2048, 2) {
        let list = (0..many as u32).map(|id| id << 16 | id).collect();
        let bytes = table(&plain(1, 3, 1).bytes(), &[None, None, None]);
        edge(all, format!("{many} glyphs"), Kind::Hvar, bytes, list, number);
    }
    for (many, number) in around(8192, 2) {
        edge(all, format!("{many} pairs"), KEEP, plain(1, 3, 1).bytes(), (0..many as u32).collect(), number);
    }
    for (many, number) in around(256, 3) {
        let one = plain(1, 1, 1);
        let store = Store { subtables: vec![one.subtables[0].clone(); many], ..one };
        edge(all, format!("{many} subtables"), KEEP, store.bytes(), vec![0, (many as u32 - 1) << 16], number);
    }
    for (many, number) in around(4096, 4) {
        edge(all, format!("{many} regions"), KEEP, plain(many.min(4096), 1, many).bytes(), vec![0], number);
    }
    for (many, number) in around(4096, 6) {
        edge(all, format!("{many} columns"), KEEP, plain(many, 2, 7).bytes(), vec![1, 0], number);
    }
}

fn ids(all: &mut Vec<Edge>) {
    let bytes = table(&plain(1, 3, 1).bytes(), &[None, None, None, None]);
    for (id, number) in [(65534, 0), (65535, 2)] {
        edge(all, format!("new id {id}"), Kind::Vvar, bytes.clone(), vec![0, id << 16 | 1], number);
        edge(all, format!("old id {id}"), Kind::Vvar, bytes.clone(), vec![0, 1 << 16 | id], number);
    }
    edge(all, "no glyph".into(), Kind::Vvar, bytes, vec![], 0);
    edge(all, "inner 65535".into(), KEEP, plain(1, 3, 1).bytes(), vec![65535, 1], 0);
    let no_axis = Store { axes: 0, ..plain(2, 2, 2) };
    edge(all, "no axis".into(), KEEP, no_axis.bytes(), vec![1], 0);
}

/// One delta in a long word column, alone and beside one that keeps long.
fn thresholds(all: &mut Vec<Edge>) {
    for delta in [127, 128, -128, -129, 32767, 32768, -32768, -32769, 65535, 65536, -65536, -65537] {
        for beside in [0, 1 << 20] {
            let subtable = Subtable { long: true, words: 2, regions: vec![0, 1], rows: vec![vec![delta, beside]] };
            let store = Store { axes: 1, regions: 2, subtables: vec![subtable] };
            let middle = (-65536..=65535).contains(&delta) && !(-32768..=32767).contains(&delta);
            let what = format!("delta {delta} beside {beside}");
            edge(all, what, Kind::Store { keep_empty: false }, store.bytes(), vec![0], if middle { 9 } else { 0 });
        }
    }
}

/// P8: a map of 4-byte entries with 1 inner bit names inner 1, which comes after the listed old ids.
fn entries(all: &mut Vec<Edge>) {
    for (list, number) in [(vec![2], 0), (vec![2, 1 << 16 | 3], 14)] {
        let lsb = Map { format: 0, entry_bytes: 4, inner_bits: 1, entries: vec![1] };
        let bytes = table(&plain(1, 4, 1).bytes(), &[None, Some(lsb), None]);
        edge(all, format!("31 outer bits, new inner {}", list.len()), Kind::Hvar, bytes, list, number);
    }
}

/// 2,048 glyphs and four maps that name a row each: 8,192 kept pairs.
fn most_pairs(all: &mut Vec<Edge>) {
    let many = 2048;
    let map = |first: usize| {
        Some(Map { format: 0, entry_bytes: 2, inner_bits: 14, entries: (first..first + many).collect() })
    };
    let bytes = table(&plain(1, 8192, 1).bytes(), &[None, map(many), map(2 * many), map(3 * many)]);
    let list = (0..many as u32).map(|id| id << 16 | id).collect();
    edge(all, "8,192 pairs of 2,048 glyphs".into(), Kind::Vvar, bytes, list, 0);
}
