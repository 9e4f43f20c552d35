//! Tables and stores as text.

use crate::args::Args;
use crate::cut::advice;
use crate::failure::Failure;
use crate::input::{self, map_names, Input};
use crate::view::{Map, Store, Table};
use binlariat::Refusal;
use std::fmt::Write;

pub fn table(noun: &str, mut args: Args) -> Result<String, Failure> {
    let input = input::table(&mut args, noun)?;
    args.end()?;
    table_text(noun, &input).map_err(|refusal| Failure::refused(&input.name, refusal, &advice(&input, refusal)))
}

pub fn store(mut args: Args) -> Result<String, Failure> {
    let input = input::store(&mut args)?;
    args.end()?;
    let mut text = format!("{}: {} bytes\n", input.name, input.bytes.len());
    match Store::open(&input.bytes).and_then(|store| store_text(&mut text, &store)) {
        Ok(()) => Ok(text),
        Err(refusal) => Err(Failure::refused(&input.name, refusal, &advice(&input, refusal))),
    }
}

fn table_text(noun: &str, input: &Input) -> Result<String, Refusal> {
    let names = map_names(noun);
    let table = Table::open(&input.bytes, names.len())?;
    let mut text =
        format!("{}: {} bytes, version {}.{}\n", input.name, input.bytes.len(), table.version.0, table.version.1);
    let Some((place, store)) = table.store()? else {
        text.push_str("no store: nothing varies\n");
        return Ok(text);
    };
    let _ = writeln!(text, "store at {place}");
    store_text(&mut text, &store)?;
    for (which, name) in names.iter().enumerate() {
        match table.map(which)? {
            Some(map) => map_text(&mut text, name, &map)?,
            None if which == 0 => text.push_str("map advance: none, so glyph G reads row G of subtable 0\n"),
            None => {
                let _ = writeln!(text, "map {name}: none");
            }
        }
    }
    Ok(text)
}

fn store_text(text: &mut String, store: &Store) -> Result<(), Refusal> {
    match store.regions()? {
        None => text.push_str("  no region list: nothing varies\n"),
        Some(list) => {
            let _ = writeln!(
                text,
                "  region list at {}: {} of {}",
                list.place,
                many(list.count, "region"),
                many(list.axes, "axis")
            );
            for region in 0..list.count {
                let axes = (0..list.axes).map(|axis| list.axis(region, axis).map(|n| n.to_string()).join(" to "));
                let _ = writeln!(text, "    region {region}: {}", axes.collect::<Vec<_>>().join(", "));
            }
        }
    }
    for outer in 0..store.subtables {
        match store.subtable(outer) {
            Ok(_) => subtable_text(text, store, outer)?,
            Err(refusal) => {
                let _ = writeln!(text, "  subtable {outer}: can't be used, {}: {refusal}", refusal.number());
            }
        }
    }
    Ok(())
}

fn subtable_text(text: &mut String, store: &Store, outer: usize) -> Result<(), Refusal> {
    let subtable = store.subtable(outer)?;
    let columns = subtable.regions.len();
    let _ = writeln!(
        text,
        "  subtable {outer} at {}: {} of {}{}",
        subtable.place,
        many(subtable.rows, "row"),
        many(columns, "column"),
        if subtable.long { ", long" } else { "" }
    );
    let size = if subtable.long { 2 } else { 1 };
    for (column, region) in subtable.regions.iter().enumerate() {
        let bytes = if column < subtable.words { 2 * size } else { size };
        let _ = writeln!(text, "    column {column}: region {region}, {}", many(bytes, "byte"));
    }
    for row in 0..subtable.rows {
        let deltas: Result<Vec<String>, _> =
            (0..columns).map(|column| store.delta(outer, row, column).map(|delta| delta.to_string())).collect();
        let _ = writeln!(text, "    row {row}: {}", deltas?.join(" "));
    }
    Ok(())
}

fn map_text(text: &mut String, name: &str, map: &Map) -> Result<(), Refusal> {
    let _ = writeln!(
        text,
        "map {name} at {}: format {}, {} of {}, {} for the row",
        map.place,
        map.format,
        many(map.count, "entry"),
        many(map.entry_bytes, "byte"),
        many(map.inner_bits, "bit")
    );
    for glyph in 0..map.count {
        let (outer, inner) = map.entry(glyph)?;
        let last = if glyph + 1 == map.count { ", and all after it" } else { "" };
        let _ = writeln!(text, "    glyph {glyph}{last}: subtable {outer}, row {inner}");
    }
    Ok(())
}

/// A number of things.
pub fn many(count: usize, thing: &str) -> String {
    let things = match thing {
        "axis" => "axes".into(),
        "entry" => "entries".into(),
        _ => format!("{thing}s"),
    };
    format!("{count} {}", if count == 1 { thing } else { &things })
}
