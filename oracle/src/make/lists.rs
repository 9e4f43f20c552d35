//! Random lists of pairs and glyphs.

use crate::draw::Draw;

/// Pairs of a store whose subtables have these many rows; now and then a list that breaks its rules.
pub fn pairs(draw: &mut Draw, rows: &[usize]) -> Vec<u32> {
    let mut list = Vec::new();
    for (outer, items) in rows.iter().enumerate() {
        if draw.once_in(4) {
            continue;
        }
        let mut inners: Vec<usize> = (0..items + 2).filter(|_| !draw.once_in(2)).collect();
        if draw.once_in(20) {
            inners.push(draw.pick(&[65534, 65535]));
        }
        draw.shuffle(&mut inners);
        list.extend(inners.iter().map(|inner| (outer << 16 | inner) as u32));
    }
    if draw.once_in(60) {
        list.push(draw.pick(&[rows.len() << 16, 0xFFFF_0000]) as u32);
    }
    if draw.once_in(2000) {
        let (outer, many) = (draw.below(rows.len() + 1), draw.within(8191, 8193));
        list = (0..many).map(|inner| (outer << 16 | inner) as u32).collect();
    }
    if draw.once_in(40) && !list.is_empty() {
        let (a, b) = (draw.below(list.len()), draw.below(list.len()));
        if draw.once_in(2) {
            list.swap(a, b);
        } else {
            list[a] = list[b];
        }
    }
    list
}

/// Glyphs, the old ids ascending or not; now and then a list that breaks its rules.
pub fn glyphs(draw: &mut Draw) -> Vec<u32> {
    let many = if draw.once_in(1500) { draw.within(2047, 2049) } else { draw.within(0, 8) };
    let reach = if draw.once_in(10) { 300 } else { 12 };
    let mut olds: Vec<usize> = (0..many).map(|_| draw.below(reach)).collect();
    if draw.once_in(12) && many > 0 {
        olds[draw.below(many)] = draw.pick(&[65533, 65534]);
    }
    if !draw.once_in(3) {
        olds.sort();
    }
    let step = draw.pick(&[1, 1, 1, 2, 5]);
    let mut next = if draw.once_in(3) { draw.below(6) } else { 0 };
    let mut list = Vec::new();
    for old in olds {
        list.push((next << 16 | old) as u32);
        next += draw.within(1, step);
    }
    if draw.once_in(100) {
        list.push((draw.pick(&[65534, 65534, 65535]) << 16 | draw.below(9)) as u32);
    }
    if draw.once_in(80) && !list.is_empty() {
        let (a, b) = (draw.below(list.len()), draw.below(list.len()));
        list[a] = draw.pick(&[list[b], 0xFFFF_0000, 0xFFFF]);
    }
    list
}
