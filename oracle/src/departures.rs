//! Every known departure from the Rust, at a smallest input, with what each side does.

use crate::bytes::hex;
use crate::call::{Call, Kind, Memory, Rust};
use skera::SubsetFlags;

/// What the Rust is known to do.
#[derive(PartialEq)]
enum Does {
    /// Writes, and other bytes than the library where that writes too.
    Writes,
    Refuses,
    Panics,
    /// Its numbers wrap and it refuses; built with overflow checks it panics.
    Wraps,
}

struct Departure {
    what: &'static str,
    call: Call,
    retain: bool,
    rust: Does,
    /// The library's number; 0 where it writes.
    ours: u32,
}

/// The smallest store with a subtable in its array: no region list, so its rows aren't looked at.
const STORE: &str = "00 01 00 00 00 00 00 01 00 00 00 00";
/// Offsets of maps in an HVAR header: none, or one that stands after the smallest store.
const NO_MAP: &str = "00 00 00 00 00 00 00 00 00 00 00 00";
const ADVANCE: &str = "00 00 00 20 00 00 00 00 00 00 00 00";
const LSB: &str = "00 00 00 00 00 00 00 20 00 00 00 00";

fn hvar(maps: &str, store_and_map: &str, glyphs: &[(u32, u32)]) -> Call {
    let bytes = unhex(&format!("00 01 00 00 00 00 00 14 {maps} {store_and_map}"));
    Call { kind: Kind::Hvar, bytes, list: glyphs.iter().map(|(new, old)| new << 16 | old).collect() }
}

fn with_map(maps: &str, map: &str, glyphs: &[(u32, u32)]) -> Call {
    hvar(maps, &format!("{STORE} {map}"), glyphs)
}

fn unhex(text: &str) -> Vec<u8> {
    text.split_whitespace().map(|byte| u8::from_str_radix(byte, 16).unwrap()).collect()
}

fn known() -> Vec<Departure> {
    use Does::*;
    let short_header = |bytes: &str| Call { kind: Kind::Hvar, bytes: unhex(bytes), list: vec![] };
    let store = |bytes: &str| Call { kind: Kind::Store { keep_empty: true }, bytes: unhex(bytes), list: vec![0] };
    let one = |what, call, rust, ours| Departure { what, call, retain: false, rust, ours };
    vec![
        one(
            "no advance map: inner bits by the last listed glyph's old id, too few where another has a longer new number",
            with_map(NO_MAP, "", &[(0, 1), (1, 2), (2, 0)]),
            Writes,
            0,
        ),
        one(
            "another map: inner bits by the largest old inner, too few where a smaller one has a longer new number",
            with_map(LSB, "00 01 00 02 02 01", &[(0, 0), (1, 2)]),
            Writes,
            0,
        ),
        one(
            "another map: no inner bits asked where the largest old inner is 0",
            with_map(LSB, "00 00 00 01 00", &[(0, 1), (1, 2)]),
            Writes,
            0,
        ),
        one(
            "and so an entry that doesn't fit 4 bytes is written",
            with_map(LSB, "00 30 00 01 00 00 00 00", &[(0, 1), (1, 2)]),
            Writes,
            14,
        ),
        one("no subtable", hvar(NO_MAP, "00 01 00 00 00 00 00 00", &[]), Panics, 15),
        Departure {
            what: "retained ids meet an inner not in the list (the library has no such flag)",
            call: with_map(LSB, "00 00 00 01 01", &[(0, 0)]),
            retain: true,
            rust: Panics,
            ours: 0,
        },
        one("an outer past the subtables, alone: its map is left out", with_map(ADVANCE, "00 00 00 01 02", &[(0, 0)]), Writes, 13),
        one("after another: 0 is written, row 0 of subtable 0", with_map(ADVANCE, "00 00 00 02 00 02", &[(0, 0), (1, 1)]), Writes, 13),
        one("before another", with_map(ADVANCE, "00 00 00 02 02 00", &[(0, 0), (1, 1)]), Panics, 13),
        one("a null store: 24 bytes for an HVAR of 20", short_header("00 01 00 00 00 00 00 00 00 00 00 00 00 00 00 00 00 00 00 00"), Writes, 0),
        one("new id 65,535: the map's count wraps to 0 and the map is left out", with_map(NO_MAP, "", &[(65535, 0)]), Writes, 2),
        one("more inner bits than entry bits: outer bits fall below 0", with_map(ADVANCE, "00 08 00 01 00", &[(0, 0)]), Wraps, 12),
        one(
            "store format 2 (rests on the stand-in, which doesn't look at it)",
            store("00 02 00 00 00 00 00 00"),
            Writes,
            3,
        ),
        one(
            "major version 2 (the same)",
            short_header("00 02 00 00 00 00 00 00 00 00 00 00 00 00 00 00 00 00 00 00"),
            Writes,
            11,
        ),
        one(
            "more words than columns (the same)",
            store("00 01 00 00 00 0C 00 01 00 00 00 10 00 00 00 00 00 00 00 01 00 00"),
            Writes,
            6,
        ),
        one(
            "rows cut short (the stand-in refuses; the text itself reads 0 where a row's bytes are missing)",
            store("00 01 00 00 00 0C 00 01 00 00 00 10 00 00 00 00 00 01 00 00 00 01 00 00"),
            Refuses,
            6,
        ),
        one("a map's count of 0, with a glyph (the same)", with_map(ADVANCE, "00 00 00 00", &[(0, 0)]), Refuses, 12),
        one("a map's count of 0, with no glyph (the same)", with_map(ADVANCE, "00 00 00 00", &[]), Writes, 12),
        one(
            "outer 65,536, of which the stand-in keeps 16 bits: 0",
            with_map(ADVANCE, "00 30 00 01 00 02 00 00", &[(0, 0)]),
            Writes,
            13,
        ),
    ]
}

/// Prints each departure; the number of those that aren't as they are known to be.
pub fn show(memory: &mut Memory) -> usize {
    let mut wrong = 0;
    println!("known departures:");
    for departure in known() {
        let call = &departure.call;
        let flags = if departure.retain { SubsetFlags::SUBSET_FLAGS_RETAIN_GIDS } else { Default::default() };
        let (rust, ours) = (call.rust(flags), memory.call_with_room(call));
        let as_known =
            match (&rust, departure.rust) {
                (Rust::Written(theirs), Does::Writes) => ours.as_ref().is_ok_and(|ours| ours.as_ref() != Ok(theirs)),
                (Rust::Refused, Does::Refuses | Does::Wraps) | (Rust::Panicked, Does::Panics | Does::Wraps) => true,
                _ => false,
            } && ours.as_ref().is_ok_and(|answer| departure.ours == answer.as_ref().err().copied().unwrap_or(0));
        println!("- {}{}", departure.what, if as_known { "" } else { "  NOT AS KNOWN" });
        println!("  {}, list {}: {}", call.kind.name(), list(&call.list), hex(&call.bytes));
        println!("  the Rust: {}", told(&rust));
        println!(
            "  the library: {}",
            match &ours {
                Ok(Ok(bytes)) => format!("writes {}", hex(bytes)),
                Ok(Err(number)) => format!("refuses with {number}"),
                Err(broken) => broken.clone(),
            }
        );
        wrong += !as_known as usize;
    }
    wrong
}

fn list(list: &[u32]) -> String {
    let two: Vec<String> = list.iter().map(|n| format!("{} {}", n >> 16, n & 0xFFFF)).collect();
    format!("[{}]", two.join(", "))
}

fn told(rust: &Rust) -> String {
    match rust {
        Rust::Written(bytes) => format!("writes {}", hex(bytes)),
        Rust::Refused => "refuses".into(),
        Rust::Panicked => "panics".into(),
    }
}

/// Prints what the Rust does with a call past a limit, which the port alone has.
pub fn show_past_limit(what: &str, call: &Call, number: u32) {
    let rust = match call.rust(Default::default()) {
        Rust::Written(bytes) => format!("writes {} bytes", bytes.len()),
        other => told(&other),
    };
    println!("- {what}: the Rust {rust}; the library refuses with {number}");
}
