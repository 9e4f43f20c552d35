//! Random calls: mostly small, some at the limits, some damaged.

mod lists;
mod store;
mod table;

use crate::call::{Call, Kind};
use crate::draw::Draw;

pub fn call(draw: &mut Draw) -> Call {
    let mut call = match draw.below(3) {
        0 => {
            let (bytes, rows) = store::store(draw);
            let list = lists::pairs(draw, &rows);
            Call { kind: Kind::Store { keep_empty: draw.once_in(2) }, bytes, list }
        }
        other => {
            let kind = if other == 1 { Kind::Hvar } else { Kind::Vvar };
            Call { kind, bytes: table::table(draw, kind.maps()), list: lists::glyphs(draw) }
        }
    };
    if draw.once_in(6) {
        damage(draw, &mut call.bytes);
    }
    call
}

/// Cuts the end off, or changes a few bytes.
fn damage(draw: &mut Draw, bytes: &mut Vec<u8>) {
    if bytes.is_empty() {
        return;
    }
    if draw.once_in(3) {
        bytes.truncate(draw.below(bytes.len()));
        return;
    }
    for _ in 0..draw.within(1, 3) {
        // Headers and offsets stand early, so early bytes are hit more often.
        let reach = if draw.once_in(2) { bytes.len().min(40) } else { bytes.len() };
        let at = draw.below(reach);
        bytes[at] = if draw.once_in(2) { draw.byte() } else { draw.pick(&[0, 1, 2, 0x7F, 0x80, 0xFF]) };
    }
}

/// A count: mostly up to `small`, now and then around a limit.
fn count(draw: &mut Draw, small: usize, limit: usize) -> usize {
    if draw.once_in(1500) {
        draw.within(limit - 1, limit + 1)
    } else {
        draw.within(0, small)
    }
}
