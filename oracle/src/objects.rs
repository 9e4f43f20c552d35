//! A written store or table as its objects, each offset followed.
//!
//! The Rust's serializer lays objects in an order of its own and lets equal ones share their bytes, so
//! two results are compared object by object. Offsets themselves are left out of an object's bytes.

use crate::bytes::{number, put};
use crate::call::Kind;

#[derive(Clone, Debug, PartialEq, Eq)]
pub struct Object {
    pub name: String,
    pub bytes: Vec<u8>,
}

/// The objects in document 01's order; `None` where an object isn't wholly inside.
pub fn objects(kind: Kind, bytes: &[u8]) -> Option<Vec<Object>> {
    let mut found = Vec::new();
    if kind.maps() == 0 {
        store(bytes, &mut found)?;
        return Some(found);
    }
    found.push(object("version", bytes.get(..4)?));
    let at = number(bytes, 4, 4)?;
    if at != 0 {
        store(bytes.get(at..)?, &mut found)?;
    }
    for map in 0..kind.maps() {
        let at = number(bytes, 8 + 4 * map, 4)?;
        if at != 0 {
            let map_bytes = bytes.get(at..)?;
            let end = map_length(map_bytes)?;
            found.push(object(format!("map {map}"), map_bytes.get(..end)?));
        }
    }
    Some(found)
}

fn object(name: impl Into<String>, bytes: &[u8]) -> Object {
    Object { name: name.into(), bytes: bytes.to_vec() }
}

fn store(bytes: &[u8], found: &mut Vec<Object>) -> Option<()> {
    found.push(object("format", bytes.get(..2)?));
    let (regions, subtables) = (number(bytes, 2, 4)?, number(bytes, 6, 2)?);
    if regions != 0 {
        let list = bytes.get(regions..)?;
        let end = 4 + 6 * number(list, 0, 2)? * number(list, 2, 2)?;
        found.push(object("region list", list.get(..end)?));
    }
    for subtable in 0..subtables {
        let data = bytes.get(number(bytes, 8 + 4 * subtable, 4)?..)?;
        found.push(object(format!("subtable {subtable}"), data.get(..subtable_length(data)?)?));
    }
    Some(())
}

fn subtable_length(data: &[u8]) -> Option<usize> {
    let (items, field, columns) = (number(data, 0, 2)?, number(data, 2, 2)?, number(data, 4, 2)?);
    let (words, size) = (field & 0x7FFF, if field & 0x8000 != 0 { 2 } else { 1 });
    Some(6 + 2 * columns + items * size * (words + columns))
}

fn map_length(map: &[u8]) -> Option<usize> {
    let entry = (number(map, 1, 1)? >> 4 & 3) + 1;
    match number(map, 0, 1)? {
        0 => Some(4 + number(map, 2, 2)? * entry),
        _ => Some(6 + number(map, 2, 4)? * entry),
    }
}

/// The objects laid as document 01 lays them: no padding, no sharing, offsets worked out.
pub fn laid(kind: Kind, objects: &[Object]) -> Vec<u8> {
    let named = |start: &str| objects.iter().filter(|o| o.name.starts_with(start)).collect::<Vec<_>>();
    let store = laid_store(&named("format"), &named("region list"), &named("subtable"));
    if kind.maps() == 0 {
        return store;
    }
    let header = 8 + 4 * kind.maps();
    let mut out = named("version")[0].bytes.clone();
    put(&mut out, if store.is_empty() { 0 } else { header }, 4);
    let mut at = header + store.len();
    for map in 0..kind.maps() {
        let length = named(&format!("map {map}")).first().map_or(0, |m| m.bytes.len());
        put(&mut out, if length == 0 { 0 } else { at }, 4);
        at += length;
    }
    out.extend(store);
    named("map").iter().for_each(|map| out.extend(&map.bytes));
    out
}

fn laid_store(format: &[&Object], regions: &[&Object], subtables: &[&Object]) -> Vec<u8> {
    let mut out = Vec::new();
    let Some(format) = format.first() else { return out };
    out.extend(&format.bytes);
    let mut at = 8 + 4 * subtables.len();
    put(&mut out, if regions.is_empty() { 0 } else { at }, 4);
    put(&mut out, subtables.len(), 2);
    at += regions.iter().map(|list| list.bytes.len()).sum::<usize>();
    for subtable in subtables {
        put(&mut out, at, 4);
        at += subtable.bytes.len();
    }
    regions.iter().chain(subtables).for_each(|object| out.extend(&object.bytes));
    out
}
