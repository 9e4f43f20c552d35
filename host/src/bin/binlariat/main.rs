//! The command: cuts, reads and shows variation stores, HVAR and VVAR tables.

mod args;
mod cut;
mod failure;
mod input;
mod lists;
mod read;
mod show;
mod view;

use args::Args;
use failure::Failure;
use std::io::Write;
use std::process::ExitCode;

const HELP: &str = "\
binlariat cuts OpenType variation tables to the glyphs or rows that are kept, and reads and shows them.

  binlariat cut hvar TABLE GLYPHS OUT            cut an HVAR table to the listed glyphs
  binlariat cut vvar TABLE GLYPHS OUT            cut a VVAR table to the listed glyphs
  binlariat cut store STORE PAIRS OUT            cut a variation store to the listed rows
                [--keep-empty]                   and write it even if nothing varies in them
  binlariat read delta STORE OUTER INNER COLUMN  one delta: subtable, row, column
  binlariat read row STORE OUTER INNER           one row: its place, its bytes and its deltas
  binlariat read entry MAP GLYPH                 one glyph's subtable and row, from a map
  binlariat show hvar FILE                       a table, as text
  binlariat show vvar FILE
  binlariat show store FILE
  binlariat --help

GLYPHS has a line NEW OLD for each kept glyph: its id in the new font and in the old one, the new ids rising.
PAIRS has a line OUTER INNER for each kept row: its subtable and its number there, the outers not falling.
'#' starts a comment. TABLE, STORE and MAP are files that hold the bytes of just that.

From a font file: in any form, --font FONT stands for TABLE, STORE, MAP or FILE (it may come anywhere).
  hvar and vvar take that table of the font. OUT is still the table by itself.
  store, delta and row take the store of the HVAR table, or with --table TAG of VVAR, MVAR, GDEF, BASE or COLR.
  entry takes the advance map of the HVAR table, or with --table VVAR of that, and with
  --map NAME another: advance, lsb, rsb in HVAR; advance, tsb, bsb, vorg in VVAR.

The exit status is 0; or the number of a refusal, 1 to 15, with its message on standard error; or 64
for a mistake in the command or in a list, or a file that can't be read or written.
";

fn main() -> ExitCode {
    let words: Vec<String> = std::env::args().skip(1).collect();
    let text = match run(words) {
        Ok(text) => text,
        Err(failure) => {
            eprintln!("binlariat: {}", failure.message);
            return ExitCode::from(failure.status);
        }
    };
    // A reader that stops early, as `head` does, is no failure.
    let _ = std::io::stdout().write_all(text.as_bytes());
    ExitCode::SUCCESS
}

/// What the command prints.
fn run(words: Vec<String>) -> Result<String, Failure> {
    if words.iter().any(|word| word == "--help" || word == "-h") {
        return Ok(HELP.into());
    }
    let mut args = Args::parse(words)?;
    let (verb, noun) = (args.next("a command (cut, read or show)")?, args.next("what it works on")?);
    match (verb.as_str(), noun.as_str()) {
        ("cut", "hvar" | "vvar") => cut::table(&noun, args),
        ("cut", "store") => cut::store(args),
        ("read", "delta") => read::delta(args),
        ("read", "row") => read::row(args),
        ("read", "entry") => read::entry(args),
        ("show", "hvar" | "vvar") => show::table(&noun, args),
        ("show", "store") => show::store(args),
        ("cut" | "show", _) => Err(Failure::usage(format!("'{verb}' works on hvar, vvar or store, not on '{noun}'"))),
        ("read", _) => Err(Failure::usage(format!("'read' reads a delta, a row or an entry, not '{noun}'"))),
        _ => Err(Failure::usage(format!("there is no command '{verb}': it is cut, read or show"))),
    }
}
