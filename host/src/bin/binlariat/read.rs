//! The readers.

use crate::args::Args;
use crate::cut::advice;
use crate::failure::Failure;
use crate::input::{self, Input};
use crate::show::many;
use crate::view::Store;
use binlariat::{read_delta, read_entry, read_row, Refusal};

pub fn delta(mut args: Args) -> Result<String, Failure> {
    let input = input::store(&mut args)?;
    let (outer, inner, column) = (args.number("OUTER")?, args.number("INNER")?, args.number("COLUMN")?);
    args.end()?;
    let delta = read_delta(&input.bytes, outer, inner, column).map_err(|refusal| refused(&input, refusal))?;
    Ok(format!("{delta}\n"))
}

pub fn row(mut args: Args) -> Result<String, Failure> {
    let input = input::store(&mut args)?;
    let (outer, inner) = (args.number("OUTER")?, args.number("INNER")?);
    args.end()?;
    row_text(&input.bytes, outer, inner).map_err(|refusal| refused(&input, refusal))
}

fn row_text(store: &[u8], outer: u32, inner: u32) -> Result<String, Refusal> {
    let row = read_row(store, outer, inner)?;
    if row.is_empty() {
        return Ok(format!("row {inner} of subtable {outer} is absent or has no column: every delta is 0\n"));
    }
    let place = row.as_ptr() as usize - store.as_ptr() as usize;
    let bytes: Vec<String> = row.iter().map(|byte| format!("{byte:02X}")).collect();
    let columns = Store::open(store)?.subtable(outer as usize)?.regions.len();
    let deltas: Result<Vec<String>, _> =
        (0..columns).map(|column| read_delta(store, outer, inner, column as u32).map(|d| d.to_string())).collect();
    Ok(format!("{} at {place}: {}\ndeltas: {}\n", many(row.len(), "byte"), bytes.join(" "), deltas?.join(" ")))
}

pub fn entry(mut args: Args) -> Result<String, Failure> {
    let input = input::map(&mut args)?;
    let glyph = args.number("GLYPH")?;
    args.end()?;
    let (outer, inner) = read_entry(&input.bytes, glyph).map_err(|refusal| refused(&input, refusal))?;
    Ok(format!("{outer} {inner}\n"))
}

fn refused(input: &Input, refusal: Refusal) -> Failure {
    Failure::refused(&input.name, refusal, &advice(input, refusal))
}
