//! The cuts.

use crate::args::Args;
use crate::failure::Failure;
use crate::input::{self, looks_like, map_names, number, Input};
use crate::lists::List;
use crate::view::Table;
use binlariat::{cut_hvar, cut_store, cut_vvar, Refusal};

pub fn table(noun: &str, mut args: Args) -> Result<String, Failure> {
    let input = input::table(&mut args, noun)?;
    let list = List::read(args.next("GLYPHS")?, "NEW OLD")?;
    let out = args.next("OUT")?;
    args.end()?;
    let glyphs = list.glyphs();
    let cut = if noun == "hvar" { cut_hvar(&input.bytes, &glyphs) } else { cut_vvar(&input.bytes, &glyphs) };
    match cut {
        Ok(bytes) => written(&input, &list, &out, &bytes, "glyph"),
        Err(Refusal::BadList) => Err(list.bad_glyphs()),
        Err(Refusal::BadOuter) => Err(bad_outer(noun, &input, &list)),
        Err(refusal) => Err(Failure::refused(&input.name, refusal, &advice(&input, refusal))),
    }
}

pub fn store(mut args: Args) -> Result<String, Failure> {
    let input = input::store(&mut args)?;
    let list = List::read(args.next("PAIRS")?, "OUTER INNER")?;
    let out = args.next("OUT")?;
    let keep_empty = std::mem::take(&mut args.keep_empty);
    args.end()?;
    match cut_store(&input.bytes, &list.pairs(), keep_empty) {
        Ok(bytes) => written(&input, &list, &out, &bytes, "row"),
        Err(Refusal::BadList) => Err(list.bad_pairs()),
        Err(Refusal::AbsentSubtable) => Err(absent(&input, &list)),
        Err(refusal) => Err(Failure::refused(&input.name, refusal, &advice(&input, refusal))),
    }
}

fn written(input: &Input, list: &List, out: &str, bytes: &[u8], thing: &str) -> Result<String, Failure> {
    std::fs::write(out, bytes).map_err(|error| Failure::file(format!("{out}: can't be written: {error}")))?;
    if list.lines.is_empty() {
        eprintln!(
            "binlariat: {} lists no {thing}, so {out} keeps none; add a line for each that is to be kept",
            list.path
        );
    }
    let s = if list.lines.len() == 1 { "" } else { "s" };
    Ok(format!(
        "{out}: {} bytes, {} {thing}{s} kept ({}: {} bytes)\n",
        bytes.len(),
        list.lines.len(),
        input.name,
        input.bytes.len()
    ))
}

/// What to do about a refusal of these bytes.
pub fn advice(input: &Input, refusal: Refusal) -> String {
    let length = input.bytes.len();
    if let Some(what) = looks_like(&input.bytes) {
        return what.into();
    }
    match refusal {
        Refusal::BadHeader | Refusal::BadStore | Refusal::BadRegions | Refusal::BadSubtable | Refusal::BadMap => {
            format!(
                "It has {length} bytes: see that it is the right table, and whole, by taking it from the font again."
            )
        }
        Refusal::NothingKept => "Keep rows that vary, or add --keep-empty to write a store that holds no delta.".into(),
        Refusal::BadRegionIndex | Refusal::MiddleWidth | Refusal::WideEntry | Refusal::EmptyStore => {
            "The table itself is at fault: it has to be made anew by what made the font.".into()
        }
        _ => String::new(),
    }
}

/// Refusal 13, told by the glyph at fault.
fn bad_outer(noun: &str, input: &Input, list: &List) -> Failure {
    let names = map_names(noun);
    let find = || -> Option<(String, String)> {
        let table = Table::open(&input.bytes, names.len()).ok()?;
        let subtables = table.store().ok()??.1.subtables;
        for (which, name) in names.iter().enumerate() {
            let Ok(Some(map)) = table.map(which) else { continue };
            for line in &list.lines {
                let (outer, _) = map.entry(line.second as usize).ok()?;
                if outer as usize >= subtables {
                    let place = format!("{}:{}", list.path, line.number);
                    let what = format!(
                        "Old glyph {} names subtable {outer} in map {name}, and the store has {subtables}; leave it out.",
                        line.second
                    );
                    return Some((place, what));
                }
            }
        }
        None
    };
    let (place, what) = find().unwrap_or_else(|| (input.name.clone(), String::new()));
    Failure::refused(&place, Refusal::BadOuter, &what)
}

/// Refusal 5, told by the pair at fault.
fn absent(input: &Input, list: &List) -> Failure {
    let subtables = number(&input.bytes, 6, 2).unwrap_or(0);
    let there = |outer: usize| outer < subtables && number(&input.bytes, 8 + 4 * outer, 4) != Some(0);
    match list.lines.iter().find(|line| !there(line.first as usize)) {
        Some(line) => {
            let what = format!("Outer {} is asked for, and the store has {subtables} in its array.", line.first);
            Failure::refused(&format!("{}:{}", list.path, line.number), Refusal::AbsentSubtable, &what)
        }
        None => Failure::refused(&input.name, Refusal::AbsentSubtable, ""),
    }
}
