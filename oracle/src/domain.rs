//! Which calls lie outside document 01's equality domain, told from the call alone.

use crate::bytes::number;
use crate::call::{Call, Kind};
use std::collections::{BTreeMap, BTreeSet};

/// Why the two sides need not agree.
#[derive(Clone, Copy, Debug, PartialEq, Eq, PartialOrd, Ord)]
pub enum Outside {
    /// A list breaks its rules or limit, an id of 65,535 included.
    List,
    /// Over 256 subtables, 4,096 regions or 4,096 columns.
    Limit,
    /// Another store format or table version, more words than columns, a map's count of 0, an outer above 65,535:
    /// what the Rust does there is its reading code's, which is not in the text.
    Reading,
    /// An HVAR table with a null store.
    NullStore,
    /// A table's store with no subtable.
    NoSubtable,
    /// A map with more inner bits than entry bits.
    InnerBits,
    /// A listed glyph's pair names an outer past the subtables.
    Outer,
}

/// The first reason in the order in which bytes are met; `None` inside the domain.
pub fn outside(call: &Call) -> Option<Outside> {
    if list_breaks_rules(call) {
        return Some(Outside::List);
    }
    if call.kind.maps() == 0 {
        return store_outside(&call.bytes, &call.list.iter().map(|p| (p >> 16) as usize).collect());
    }
    let table = &call.bytes;
    if table.len() < 8 + 4 * call.kind.maps() {
        return None;
    }
    let store_at = number(table, 4, 4)?;
    if number(table, 0, 2)? != 1 {
        return Some(Outside::Reading);
    }
    if store_at == 0 {
        return (call.kind == Kind::Hvar).then_some(Outside::NullStore);
    }
    let store = table.get(store_at..)?;
    if number(store, 6, 2)? == 0 {
        return Some(Outside::NoSubtable);
    }
    maps_outside(call, number(store, 6, 2)?).or_else(|| store_outside(store, &outers(call)))
}

fn list_breaks_rules(call: &Call) -> bool {
    let rising = call.list.windows(2).all(|two| two[0] >> 16 < two[1] >> 16);
    let falls = call.list.windows(2).any(|two| two[0] >> 16 > two[1] >> 16);
    match call.kind {
        Kind::Store { .. } => {
            let different: BTreeSet<&u32> = call.list.iter().collect();
            call.list.len() > 8192 || falls || different.len() < call.list.len()
        }
        _ => call.list.len() > 2048 || !rising || call.list.iter().any(|g| g >> 16 == 65535 || g & 0xFFFF == 65535),
    }
}

fn store_outside(store: &[u8], outers: &BTreeSet<usize>) -> Option<Outside> {
    if number(store, 0, 2)? != 1 {
        return Some(Outside::Reading);
    }
    let (regions, subtables) = (number(store, 2, 4)?, number(store, 6, 2)?);
    if subtables > 256 {
        return Some(Outside::Limit);
    }
    if regions == 0 {
        return None;
    }
    if number(store, regions + 2, 2)? > 4096 {
        return Some(Outside::Limit);
    }
    for outer in outers.range(..subtables) {
        let at = number(store, 8 + 4 * outer, 4)?;
        let (words, columns) = (number(store, at + 2, 2)? & 0x7FFF, number(store, at + 4, 2)?);
        if columns > 4096 {
            return Some(Outside::Limit);
        }
        if words > columns {
            return Some(Outside::Reading);
        }
    }
    None
}

fn maps_outside(call: &Call, subtables: usize) -> Option<Outside> {
    let present: Vec<Map> = (0..call.kind.maps()).filter_map(|map| Map::read(&call.bytes, map)).collect();
    if present.iter().any(|map| map.count == 0) {
        return Some(Outside::Reading);
    }
    if present.iter().any(|map| map.inner_bits > 8 * map.entry_bytes) {
        return Some(Outside::InnerBits);
    }
    let past = |map: &Map| {
        let outers = call.list.iter().filter_map(|glyph| map.pair(glyph & 0xFFFF)).map(|(outer, _)| outer);
        outers.max().filter(|outer| *outer >= subtables)
    };
    match present.iter().filter_map(past).max()? {
        0x1_0000.. => Some(Outside::Reading),
        _ => Some(Outside::Outer),
    }
}

/// The outers that a table's listed glyphs name.
fn outers(call: &Call) -> BTreeSet<usize> {
    let all = (0..call.kind.maps()).flat_map(|map| map_pairs(call, map).unwrap_or_default());
    all.map(|(outer, _)| outer).collect()
}

/// A map as the chapter says it is read.
struct Map<'a> {
    bytes: &'a [u8],
    head: usize,
    entry_bytes: usize,
    inner_bits: usize,
    count: usize,
}

impl<'a> Map<'a> {
    fn read(table: &'a [u8], map: usize) -> Option<Self> {
        let bytes = table.get(number(table, 8 + 4 * map, 4).filter(|at| *at != 0)?..)?;
        let head = if number(bytes, 0, 1)? == 0 { 4 } else { 6 };
        let format = number(bytes, 1, 1)?;
        let count = number(bytes, 2, head - 2)?;
        Some(Self { bytes, head, entry_bytes: (format >> 4 & 3) + 1, inner_bits: (format & 15) + 1, count })
    }

    fn pair(&self, glyph: u32) -> Option<(usize, usize)> {
        let place = self.head + (glyph as usize).min(self.count - 1) * self.entry_bytes;
        let entry = number(self.bytes, place, self.entry_bytes)?;
        Some((entry >> self.inner_bits, entry & ((1 << self.inner_bits) - 1)))
    }
}

/// The pairs of the listed glyphs in a map; an absent advance map has each glyph's own row of outer 0.
fn map_pairs(call: &Call, map: usize) -> Option<Vec<(usize, usize)>> {
    let olds = call.list.iter().map(|glyph| glyph & 0xFFFF);
    if number(&call.bytes, 8 + 4 * map, 4)? == 0 {
        return (map == 0).then(|| olds.map(|old| (0, old as usize)).collect());
    }
    let read = Map::read(&call.bytes, map)?;
    olds.map(|old| read.pair(old)).collect()
}

/// The maps for which the Rust takes too few inner bits, for a table inside the domain that both sides read.
///
/// It takes the new number of the largest old inner of each outer, or, for an absent advance map, of the
/// last listed glyph's old id; and none where that old inner is 0.
pub fn few_inner_bits(call: &Call) -> Vec<usize> {
    let pairs: Vec<_> = (0..call.kind.maps()).map(|map| map_pairs(call, map)).collect();
    let advance_absent = number(&call.bytes, 8, 4) == Some(0);
    let mut kept: BTreeMap<usize, Vec<usize>> = BTreeMap::new();
    let mut first: Vec<usize> = call.list.iter().map(|glyph| (glyph & 0xFFFF) as usize).collect();
    first.sort();
    first.dedup();
    let named: BTreeSet<(usize, usize)> = pairs.iter().flatten().flatten().copied().collect();
    if advance_absent {
        kept.insert(0, first.clone());
    }
    for (outer, inner) in named {
        if !(advance_absent && outer == 0 && first.binary_search(&inner).is_ok()) {
            kept.entry(outer).or_default().push(inner);
        }
    }
    let new: BTreeMap<(usize, usize), usize> = kept
        .iter()
        .flat_map(|(outer, inners)| inners.iter().enumerate().map(|(new, inner)| ((*outer, *inner), new)))
        .collect();
    let bits = |number: usize| usize::BITS - number.leading_zeros();
    let few = |map: &usize| {
        let Some(pairs) = pairs[*map].as_ref().filter(|pairs| !pairs.is_empty()) else { return false };
        let needed = pairs.iter().map(|pair| bits(new[pair])).max().unwrap_or(0).max(1);
        let mut largest: BTreeMap<usize, usize> = BTreeMap::new();
        for (outer, inner) in if *map == 0 && advance_absent { &pairs[pairs.len() - 1..] } else { &pairs[..] } {
            let entry = largest.entry(*outer).or_default();
            *entry = (*inner).max(*entry);
        }
        let taken = largest.iter().filter(|(_, inner)| **inner != 0).map(|(outer, inner)| bits(new[&(*outer, *inner)]));
        taken.max().unwrap_or(0).max(1) < needed
    };
    (0..call.kind.maps()).filter(few).collect()
}
