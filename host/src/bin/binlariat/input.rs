//! Where the bytes of a table, a store or a map come from: a file of their own, or a font.

use crate::args::Args;
use crate::failure::Failure;

/// Bytes, and how they are called in messages.
pub struct Input {
    pub name: String,
    pub bytes: Vec<u8>,
}

/// Tables that hold a variation store: where its offset stands, and of how many bytes that is.
const STORES: [(&str, usize, usize); 6] =
    [("HVAR", 4, 4), ("VVAR", 4, 4), ("MVAR", 10, 2), ("GDEF", 14, 4), ("BASE", 8, 4), ("COLR", 30, 4)];

/// The names of a table's maps, in the order of its header.
pub fn map_names(table: &str) -> &'static [&'static str] {
    if table.eq_ignore_ascii_case("hvar") {
        &["advance", "lsb", "rsb"]
    } else {
        &["advance", "tsb", "bsb", "vorg"]
    }
}

/// A number of `size` bytes; `None` where it isn't wholly inside.
pub fn number(bytes: &[u8], place: usize, size: usize) -> Option<usize> {
    let cell = bytes.get(place..place.checked_add(size)?)?;
    Some(cell.iter().fold(0, |n, byte| n << 8 | *byte as usize))
}

/// An HVAR or VVAR table.
pub fn table(args: &mut Args, noun: &str) -> Result<Input, Failure> {
    match args.font.take() {
        Some(font) => from_font(&font, &noun.to_uppercase()),
        None => file(args.next("TABLE")?),
    }
}

/// A store.
pub fn store(args: &mut Args) -> Result<Input, Failure> {
    let Some(font) = args.font.take() else { return file(args.next("STORE")?) };
    let tag = args.table.take().unwrap_or("HVAR".into()).to_uppercase();
    let Some((_, place, size)) = STORES.iter().find(|(name, ..)| *name == tag) else {
        return Err(Failure::usage(format!(
            "--table is '{tag}'; a store is found in HVAR, VVAR, MVAR, GDEF, BASE or COLR"
        )));
    };
    let table = from_font(&font, &tag)?;
    part(table, *place, *size, "variation store")
}

/// A map.
pub fn map(args: &mut Args) -> Result<Input, Failure> {
    let Some(font) = args.font.take() else { return file(args.next("MAP")?) };
    let tag = args.table.take().unwrap_or("HVAR".into()).to_uppercase();
    if tag != "HVAR" && tag != "VVAR" {
        return Err(Failure::usage(format!("--table is '{tag}'; a map is found in HVAR or VVAR")));
    }
    let name = args.map.take().unwrap_or("advance".into());
    let Some(at) = map_names(&tag).iter().position(|known| *known == name) else {
        return Err(Failure::usage(format!("--map is '{name}'; {tag} has {}", map_names(&tag).join(", "))));
    };
    part(from_font(&font, &tag)?, 8 + 4 * at, 4, &format!("map '{name}'"))
}

/// The bytes from an offset that stands at a place of a table, to the table's end.
fn part(table: Input, place: usize, size: usize, what: &str) -> Result<Input, Failure> {
    let name = &table.name;
    match number(&table.bytes, place, size).unwrap_or(0) {
        0 => Err(Failure::file(format!("{name}: has no {what}"))),
        at if at > table.bytes.len() => Err(Failure::file(format!("{name}: its {what} starts past its end"))),
        at => Ok(Input { name: format!("{what} of {name}"), bytes: table.bytes[at..].to_vec() }),
    }
}

fn file(path: String) -> Result<Input, Failure> {
    match std::fs::read(&path) {
        Ok(bytes) => Ok(Input { name: path, bytes }),
        Err(error) => Err(Failure::file(format!("{path}: can't be read: {error}"))),
    }
}

/// A table of a font file.
fn from_font(path: &str, tag: &str) -> Result<Input, Failure> {
    let font = file(path.into())?.bytes;
    if let Some(what) = not_a_font(&font) {
        return Err(Failure::file(format!("{path}: {what}")));
    }
    for record in 0..number(&font, 4, 2).unwrap_or(0) {
        let at = 12 + 16 * record;
        if font.get(at..at + 4) == Some(tag.as_bytes()) {
            let (start, length) = (number(&font, at + 8, 4).unwrap_or(0), number(&font, at + 12, 4).unwrap_or(0));
            let bytes = font.get(start..start + length).map(<[u8]>::to_vec);
            let bytes = bytes.ok_or_else(|| {
                Failure::file(format!("{path}: its {tag} table doesn't lie inside the file: is the file whole?"))
            })?;
            return Ok(Input { name: format!("{tag} of {path}"), bytes });
        }
    }
    Err(Failure::file(format!("{path}: the font has no {tag} table")))
}

fn not_a_font(bytes: &[u8]) -> Option<&'static str> {
    match bytes.get(..4) {
        Some([0, 1, 0, 0] | b"OTTO" | b"true") => None,
        Some(b"ttcf") => Some("this is a font collection; take one font out of it first"),
        Some(b"wOFF" | b"wOF2") => Some("this is a compressed web font; unpack it to .ttf or .otf first"),
        _ => Some("this isn't a font file (.ttf or .otf)"),
    }
}

/// Says what the bytes seem to be, where they seem to be something else than a table.
pub fn looks_like(bytes: &[u8]) -> Option<&'static str> {
    let directory = number(bytes, 4, 2).is_some_and(|tables| {
        (1..=200).contains(&tables)
            && (0..tables).all(|at| bytes.get(12 + 16 * at..16 + 16 * at).is_some_and(|tag| tag.is_ascii()))
    });
    match bytes.get(..4) {
        Some([0, 1, 0, 0] | b"OTTO" | b"true") if directory => {
            Some("This looks like a whole font: put --font before it.")
        }
        Some(b"wOFF" | b"wOF2") => {
            Some("This looks like a compressed web font: unpack it to .ttf or .otf, and put --font before it.")
        }
        _ if !bytes.is_empty() && bytes.iter().all(|byte| byte.is_ascii_graphic() || byte.is_ascii_whitespace()) => {
            Some("This looks like text: it may stand in the place of another file.")
        }
        _ => None,
    }
}
