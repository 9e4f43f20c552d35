//! The command, as a user meets it: what it writes, what it says, and its exit status.

use std::path::PathBuf;
use std::process::Command;

/// Runs the command in samples/, its words parted by spaces; OUT is a file of its own.
fn run(words: &str, out: &str) -> (i32, String, String) {
    let samples = concat!(env!("CARGO_MANIFEST_DIR"), "/../samples");
    let out = scratch(out);
    let words = words.split(' ').map(|word| if word == "OUT" { out.to_str().unwrap() } else { word });
    let ran = Command::new(env!("CARGO_BIN_EXE_binlariat")).args(words).current_dir(samples).output().unwrap();
    let text = |bytes| String::from_utf8(bytes).unwrap();
    (ran.status.code().unwrap(), text(ran.stdout), text(ran.stderr))
}

fn scratch(name: &str) -> PathBuf {
    PathBuf::from(env!("CARGO_TARGET_TMPDIR")).join(name)
}

/// A file for the command to read.
fn file(name: &str, bytes: &[u8]) -> String {
    let path = scratch(name);
    std::fs::write(&path, bytes).unwrap();
    path.to_str().unwrap().into()
}

fn sample(name: &str) -> Vec<u8> {
    std::fs::read(PathBuf::from(env!("CARGO_MANIFEST_DIR")).join("../samples").join(name)).unwrap()
}

/// That a command fails with a status and says all of this.
fn fails(words: &str, status: i32, says: &[&str]) {
    let (got, _, error) = run(words, "unwritten");
    assert_eq!(got, status, "{words}: {error}");
    for part in says {
        assert!(error.contains(part), "{words}: '{part}' isn't in: {error}");
    }
    assert!(!scratch("unwritten").exists(), "{words} wrote its output");
}

#[test]
fn cuts() {
    let (status, said, _) = run("cut hvar small.hvar glyphs.txt OUT", "p6");
    assert_eq!((status, said.contains("58 bytes, 2 glyphs kept")), (0, true), "{said}");
    let cut = std::fs::read(scratch("p6")).unwrap();
    assert_eq!((cut.len(), &cut[52..]), (58, &[0, 0, 0, 2, 0, 1][..]));
    assert_eq!(run("cut store small.store pairs.txt OUT", "p1").0, 0);
    assert_eq!(std::fs::read(scratch("p1")).unwrap(), cut[20..52]);
    assert_eq!(run("cut vvar origin.vvar four-glyphs.txt OUT", "vvar").0, 0);
    let shown = run("show vvar OUT", "vvar").1;
    assert!(shown.contains("glyph 1, and all after it: subtable 1, row 1"), "{shown}");
}

#[test]
fn reads() {
    assert_eq!(run("read delta small.store 0 1 0", "").1, "-200\n");
    assert_eq!(run("read row small.store 0 1", "").1, "3 bytes at 41: FF 38 05\ndeltas: -200 5\n");
    assert_eq!(run(&format!("read entry {} 3", file("lsb", &sample("maps.hvar")[130..])), "").1, "1 2\n");
    fails("read delta small.store 1 0 0", 5, &["a subtable that is asked for"]);
    fails("read delta small.store 0 x 0", 64, &["INNER is 'x'"]);
}

#[test]
fn shows() {
    let shown = run("show store small.store", "").1;
    for line in ["region 1: -1 to -1 to 0", "column 1: region 1, 1 byte", "row 1: -200 5"] {
        assert!(shown.contains(line), "'{line}' isn't in: {shown}");
    }
    assert!(run("show hvar small.hvar", "").1.contains("map lsb: none"));
    assert!(run("--help", "").1.contains("binlariat read entry MAP GLYPH"));
}

/// A font of one table, to take that from.
#[test]
fn takes_tables_from_a_font() {
    let (table, mut font) = (sample("maps.hvar"), b"OTTO\0\x01\0\0\0\0\0\0HVAR\0\0\0\0\0\0\0\x1C".to_vec());
    font.extend((table.len() as u32).to_be_bytes());
    font.extend(&table);
    let path = file("font.otf", &font);
    let plain = run("cut hvar maps.hvar four-glyphs.txt OUT", "plain").0;
    let taken = run(&format!("cut hvar --font {path} four-glyphs.txt OUT"), "taken").0;
    assert_eq!((plain, taken), (0, 0));
    assert_eq!(std::fs::read(scratch("plain")).unwrap(), std::fs::read(scratch("taken")).unwrap());
    assert_eq!(run(&format!("read entry 2 --map lsb --font {path}"), "").1, "1 1\n");
    assert_eq!(run(&format!("read delta 0 2 2 --font {path}"), "").1, "8\n");
    assert!(run(&format!("show store --font {path} --table HVAR"), "").1.contains("row 2: -30"));
    fails(&format!("cut vvar --font {path} glyphs.txt OUT"), 64, &["the font has no VVAR table"]);
    fails(&format!("cut hvar {path} glyphs.txt OUT"), 11, &["put --font before it"]);
    fails(&format!("show store --font {path} --table glyf"), 64, &["a store is found in HVAR"]);
    let short = file("short.otf", &font[..60]);
    fails(&format!("show hvar --font {short}"), 64, &["is the file whole?"]);
}

#[test]
fn says_what_is_wrong_with_a_file() {
    fails("cut hvar nowhere glyphs.txt OUT", 64, &["nowhere", "can't be read"]);
    fails("cut hvar glyphs.txt glyphs.txt OUT", 11, &["glyphs.txt", "looks like text"]);
    fails("cut hvar small.hvar small.hvar OUT", 64, &["small.hvar: this isn't text", "'NEW OLD'"]);
    fails("cut hvar --font glyphs.txt glyphs.txt OUT", 64, &["this isn't a font file"]);
    for (length, status) in [(10, 11), (24, 3), (40, 4), (66, 6)] {
        let cut = file(&format!("short{length}"), &sample("small.hvar")[..length]);
        let bytes = format!("It has {length} bytes");
        fails(&format!("cut hvar {cut} glyphs.txt OUT"), status, &[&bytes, "whole"]);
    }
}

#[test]
fn says_what_is_wrong_with_a_list() {
    let list = |name: &str, text: &str| file(name, text.as_bytes());
    let hvar = |list: &str| format!("cut hvar small.hvar {list} OUT");
    let store = |list: &str| format!("cut store small.store {list} OUT");
    fails(&hvar(&list("a", "0 0\n1 two")), 64, &["a:2: expected 'NEW OLD'", "found '1 two'"]);
    fails(&hvar(&list("b", "0 0\n# two\n2 1\n1 2")), 2, &["b:4: refused with 2", "after new id 2 of line 3"]);
    fails(&hvar(&list("c", "0 65535")), 2, &["c:1", "the highest glyph id is 65534"]);
    fails(&hvar(&list("d", "0 70000")), 64, &["d:1: expected", "from 0 to 65535"]);
    let many: String = (0..2049).map(|id| format!("{id} 0\n")).collect();
    fails(&hvar(&list("e", &many)), 2, &["2049 glyphs; at most 2,048"]);
    fails(&store(&list("f", "1 0\n0 2")), 2, &["f:2", "outer 0 comes after outer 1"]);
    fails(&store(&list("g", "0 1\n0 2\n0 1")), 2, &["g:3", "the pair 0 1 stands in line 1 already"]);
    fails(&store(&list("h", "0 0\n3 0")), 5, &["h:2", "Outer 3 is asked for, and the store has 1"]);
    fails(&store(&list("i", "# none")), 7, &["--keep-empty"]);
    let mut table = sample("maps.hvar");
    table[136] = 0xF8;
    let marked = file("marked", &table);
    fails(
        &format!("cut hvar {marked} four-glyphs.txt OUT"),
        13,
        &["four-glyphs.txt:3", "Old glyph 2 names subtable 31 in map lsb"],
    );
    let (status, _, error) = run(&hvar(&list("j", "")), "empty");
    assert_eq!((status, error.contains("j lists no glyph")), (0, true), "{error}");
}

#[test]
fn says_what_is_wrong_with_the_words() {
    fails("frob it", 64, &["there is no command 'frob'", "--help"]);
    fails("cut", 64, &["what it works on is missing"]);
    fails("cut gvar", 64, &["hvar, vvar or store, not on 'gvar'"]);
    fails("cut hvar small.hvar", 64, &["GLYPHS is missing"]);
    fails("cut hvar small.hvar glyphs.txt", 64, &["OUT is missing"]);
    fails("cut hvar small.hvar glyphs.txt OUT more", 64, &["'more' is one word too many"]);
    fails("cut hvar small.hvar glyphs.txt OUT --fast", 64, &["no option '--fast'"]);
    fails("cut hvar small.hvar glyphs.txt OUT --keep-empty", 64, &["'--keep-empty' says nothing here"]);
    fails("show store small.store --table GDEF", 64, &["'--table' says nothing here"]);
}
