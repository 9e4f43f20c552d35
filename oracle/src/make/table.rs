//! Random tables.

use super::store::store;
use crate::bytes::{put, set};
use crate::draw::Draw;
use crate::shape::Map;

/// A table with room for this many maps in its header.
pub fn table(draw: &mut Draw, maps: usize) -> Vec<u8> {
    let (store, rows) = store(draw);
    let mut out = Vec::new();
    put(&mut out, if draw.once_in(80) { draw.below(3) } else { 1 }, 2);
    put(&mut out, draw.pick(&[0, 0, 0, 1, 0xFFFF]), 2);
    out.resize(8 + 4 * maps, 0);
    // Object 0 is the store, whose offset stands at 4; object i + 1 is map i.
    let mut order: Vec<usize> = (0..=maps).collect();
    draw.shuffle(&mut order);
    for object in &order {
        if draw.once_in(5) {
            out.resize(out.len() + draw.below(4), 0xEE);
        }
        let at = out.len();
        if *object == 0 && !draw.once_in(60) {
            set(&mut out, 4, at, 4);
            out.extend(&store);
        } else if *object > 0 && draw.once_in(2) {
            set(&mut out, 4 + 4 * object, at, 4);
            let mut map = map(draw, &rows).bytes();
            map[1] |= draw.pick(&[0, 0, 0, 0x40, 0x80, 0xC0]);
            out.extend(map);
        }
    }
    if draw.once_in(12) {
        let (from, to) = (4 * draw.within(2, maps + 1), 4 * draw.within(2, maps + 1));
        out.copy_within(from..from + 4, to);
    }
    if draw.once_in(60) {
        let wrong = draw.below(out.len() + 4);
        set(&mut out, 4 * draw.within(1, maps + 1), wrong, 4);
    }
    out
}

/// A map into subtables with these many rows.
fn map(draw: &mut Draw, rows: &[usize]) -> Map {
    let entry_bytes = draw.within(1, 4);
    let most = if draw.once_in(80) { 16 } else { 16.min(8 * entry_bytes) };
    let inner_bits = draw.within(1, most);
    let outer_bits = (8 * entry_bytes).saturating_sub(inner_bits);
    let count = if draw.once_in(60) { draw.within(0, 300) } else { draw.within(1, 10) };
    let past = if draw.once_in(40) { 2 } else { 0 };
    let entry = |draw: &mut Draw| {
        let outer = draw.below((rows.len() + past).clamp(1, 1 << outer_bits));
        let inner = draw.below((rows.get(outer).unwrap_or(&0) + 2).min(1 << inner_bits));
        (outer << inner_bits | inner) & ((1 << (8 * entry_bytes)) - 1)
    };
    let mut entries: Vec<usize> = (0..count).map(|_| entry(draw)).collect();
    if count > 0 && draw.once_in(3) {
        let from = draw.below(count);
        let same = entries[from];
        entries[from..].fill(same);
    }
    let format = if draw.once_in(100) { 2 } else { draw.pick(&[0, 0, 1]) };
    Map { format, entry_bytes, inner_bits, entries }
}
