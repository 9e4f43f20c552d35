//! Random stores.

use super::count;
use crate::bytes::{put, set};
use crate::draw::Draw;
use crate::shape::{Store, Subtable};

/// Deltas at every threshold of the rules, the near ones first.
const DELTAS: [i64; 22] = [
    0,
    1,
    -1,
    5,
    127,
    -128,
    128,
    -129,
    200,
    -32768,
    32767,
    65536,
    -65537,
    70000,
    2147483647,
    -2147483648,
    65535,
    -65536,
    40000,
    -40000,
    32768,
    -32769,
];

/// A store's bytes and the number of rows of each subtable.
pub fn store(draw: &mut Draw) -> (Vec<u8>, Vec<usize>) {
    let subtables = count(draw, 4, 256).max(if draw.once_in(40) { 0 } else { 1 });
    let shape = Store { axes: draw.within(0, 3), regions: count(draw, 6, 4096), subtables: Vec::new() };
    let shape = Store { subtables: (0..subtables).map(|_| subtable(draw, shape.regions)).collect(), ..shape };
    let rows = shape.subtables.iter().map(|s| s.rows.len()).collect();
    (scattered(draw, &shape), rows)
}

fn subtable(draw: &mut Draw, regions: usize) -> Subtable {
    let columns = count(draw, 5, 4096);
    let items = if draw.once_in(200) { draw.within(0, 300) } else { draw.within(0, 6) };
    let words = if draw.once_in(400) { columns + 1 } else { draw.within(0, columns) };
    let reach: Vec<usize> = (0..columns).map(|_| draw.pick(&[1, 3, 4, 6, 8, 11, 11, 16, DELTAS.len()])).collect();
    let delta = |draw: &mut Draw, column: usize| {
        if draw.once_in(2) {
            0
        } else {
            DELTAS[draw.below(reach[column])]
        }
    };
    let rows = (0..items).map(|_| (0..columns).map(|c| delta(draw, c)).collect()).collect();
    let past = if draw.once_in(30) { 2 } else { 0 };
    let region = |draw: &mut Draw| if regions + past == 0 { 0 } else { draw.below(regions + past) };
    Subtable { long: draw.once_in(2), words, regions: (0..columns).map(|_| region(draw)).collect(), rows }
}

/// The objects in any order, with gaps, now and then shared, absent or misplaced.
fn scattered(draw: &mut Draw, shape: &Store) -> Vec<u8> {
    let mut out = Vec::new();
    put(&mut out, if draw.once_in(150) { draw.below(3) } else { 1 }, 2);
    put(&mut out, 0, 4);
    put(&mut out, shape.subtables.len(), 2);
    out.resize(8 + 4 * shape.subtables.len(), 0);
    // Object 0 is the region list, whose offset stands at 2; object i + 1 is subtable i.
    let place = |object: usize| if object == 0 { 2 } else { 4 + 4 * object };
    let mut order: Vec<usize> = (0..=shape.subtables.len()).collect();
    draw.shuffle(&mut order);
    for object in &order {
        if draw.once_in(4) {
            out.resize(out.len() + draw.below(4), 0xEE);
        }
        let at = out.len();
        set(&mut out, place(*object), at, 4);
        out.extend(if *object == 0 { shape.region_list() } else { shape.subtables[*object - 1].bytes() });
    }
    if draw.once_in(12) {
        let (from, to) = (draw.pick(&order), draw.pick(&order));
        out.copy_within(place(from)..place(from) + 4, place(to));
    }
    if draw.once_in(25) {
        let wrong = if draw.once_in(2) { 0 } else { draw.below(out.len() + 4) };
        set(&mut out, place(draw.pick(&order)), wrong, 4);
    }
    out
}
