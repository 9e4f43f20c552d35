//! What is timed.

#[derive(Clone, Copy, PartialEq, Eq)]
pub enum Kind {
    Store,
    Hvar,
    Vvar,
}

pub struct Request {
    pub name: String,
    pub kind: Kind,
    pub bytes: Vec<u8>,
    pub list: Vec<u32>,
}

/// Numbers that look random (xorshift).
struct Random(u64);

impl Random {
    fn below(&mut self, end: u64) -> u64 {
        self.0 ^= self.0 << 13;
        self.0 ^= self.0 >> 7;
        self.0 ^= self.0 << 17;
        self.0 % end
    }
}

fn put(bytes: &mut Vec<u8>, number: usize, size: usize) {
    bytes.extend_from_slice(&number.to_be_bytes()[8 - size..]);
}

/// A store of subtables of one shape over 16 regions of 2 axes. Half of the columns are words; a long store's
/// words reach past 65,535, another's past 127.
fn store(random: &mut Random, subtables: usize, rows: usize, columns: usize, long: bool) -> Vec<u8> {
    let (words, size) = (columns / 2, if long { 2 } else { 1 });
    let subtable_bytes = 6 + 2 * columns + rows * size * (words + columns);
    let regions = 8 + 4 * subtables;
    let first = regions + 4 + 16 * 12;
    let mut out = Vec::new();
    put(&mut out, 1, 2);
    put(&mut out, regions, 4);
    put(&mut out, subtables, 2);
    (0..subtables).for_each(|at| put(&mut out, first + at * subtable_bytes, 4));
    put(&mut out, 2, 2);
    put(&mut out, 16, 2);
    (0..16 * 6).for_each(|_| put(&mut out, random.below(65536) as usize, 2));
    for _ in 0..subtables {
        put(&mut out, rows, 2);
        put(&mut out, words | if long { 0x8000 } else { 0 }, 2);
        put(&mut out, columns, 2);
        (0..columns).for_each(|column| put(&mut out, column * 2, 2));
        for _ in 0..rows {
            for column in 0..columns {
                let wide = column < words;
                // A word is beyond a narrow cell's reach and inside what the rules have a width for.
                let delta = match (wide, long) {
                    (true, true) => random.below(1 << 20) as i64 + 65536,
                    (true, false) => random.below(2000) as i64 - 1000,
                    (false, _) => random.below(200) as i64 - 100,
                };
                put(&mut out, delta as usize, if wide { 2 * size } else { size });
            }
        }
    }
    out
}

/// A map of glyphs into subtables with these many rows: 2 bytes an entry, 12 bits for the row; or 3 and 16.
fn map(random: &mut Random, glyphs: usize, subtables: usize, rows: usize) -> Vec<u8> {
    let (size, bits) = if rows <= 4096 { (2, 12) } else { (3, 16) };
    let mut out = vec![0, (size as u8 - 1) << 4 | (bits - 1)];
    put(&mut out, glyphs, 2);
    for _ in 0..glyphs {
        let (outer, inner) = (random.below(subtables as u64), random.below(rows as u64));
        put(&mut out, (outer << bits | inner) as usize, size);
    }
    out
}

/// A table with these maps of its header; an empty one is absent, and so are those behind the last.
fn table(store: &[u8], header_maps: usize, maps: &[Vec<u8>]) -> Vec<u8> {
    let mut out = Vec::new();
    put(&mut out, 0x0001_0000, 4);
    let mut at = 8 + 4 * header_maps;
    put(&mut out, at, 4);
    at += store.len();
    for map in maps {
        put(&mut out, if map.is_empty() { 0 } else { at }, 4);
        at += map.len();
    }
    out.resize(8 + 4 * header_maps, 0);
    out.extend(store);
    maps.iter().for_each(|map| out.extend(map));
    out
}

/// Every second glyph, renumbered.
fn half(glyphs: usize) -> Vec<u32> {
    (0..glyphs as u32 / 2).map(|id| id << 16 | 2 * id).collect()
}

/// The requests that need no file.
pub fn made() -> Vec<Request> {
    let random = &mut Random(0x2545_F491_4F6C_DD1D);
    let mut all = Vec::new();
    let mut add = |name: &str, kind, bytes, list| all.push(Request { name: name.into(), kind, bytes, list });
    let pairs: Vec<u32> = (0..4).flat_map(|outer| (0..150).map(move |inner| outer << 16 | 2 * inner)).collect();
    add("store, 600 pairs, words", Kind::Store, store(random, 4, 300, 6, false), pairs.clone());
    add("store, 600 pairs, long", Kind::Store, store(random, 4, 300, 6, true), pairs);
    let plain = store(random, 1, 1200, 6, false);
    add("HVAR, no map, 600 of 1,200", Kind::Hvar, table(&plain, 3, &[]), half(1200));
    let four = store(random, 4, 300, 6, false);
    let maps: Vec<_> = (0..4).map(|_| map(random, 1200, 4, 300)).collect();
    add("HVAR, 3 maps, 600 of 1,200", Kind::Hvar, table(&four, 3, &maps[..3]), half(1200));
    add("VVAR, 4 maps, 600 of 1,200", Kind::Vvar, table(&four, 4, &maps), half(1200));
    let most = store(random, 4, 2048, 8, false);
    let maps: Vec<_> = (0..3).map(|_| map(random, 2048, 4, 2048)).collect();
    let all_glyphs: Vec<u32> = (0..2048).map(|id| id << 16 | id).collect();
    add("HVAR, 3 maps, 2,048 glyphs, 4 x 2,048 rows", Kind::Hvar, table(&most, 3, &maps), all_glyphs.clone());
    let far = store(random, 3, 65535, 2, false);
    let maps: Vec<_> = (0..3).map(|_| map(random, 2048, 3, 65535)).collect();
    add("HVAR, 3 maps, 2,048 glyphs, 3 x 65,535 rows", Kind::Hvar, table(&far, 3, &maps), all_glyphs);
    let plain = store(random, 1, 65535, 2, false);
    let maps = [Vec::new(), map(random, 65000, 1, 65000), map(random, 65000, 1, 65000)];
    let spread: Vec<u32> = (0..2048).map(|id| id << 16 | id * 31).collect();
    add("HVAR, lsb and rsb maps, 2,048 of 65,000", Kind::Hvar, table(&plain, 3, &maps), spread);
    add("P1", Kind::Store, P1_STORE.to_vec(), vec![0, 2]);
    all
}

/// Document 01's store S.
const P1_STORE: [u8; 47] = [
    0, 1, 0, 0, 0, 12, 0, 1, 0, 0, 0, 28, 0, 1, 0, 2, 0, 0, 64, 0, 64, 0, 192, 0, 192, 0, 0, 0, 0, 3, 0, 1, 0, 2, 0, 0,
    0, 1, 0, 100, 0, 255, 56, 5, 0, 10, 0,
];

/// The HVAR and VVAR tables of a font file, cut to every second glyph of the first 4,096.
pub fn of_font(path: &str) -> Vec<Request> {
    let font = std::fs::read(path).unwrap_or_else(|error| panic!("{path}: {error}"));
    let number = |at: usize, size: usize| font[at..at + size].iter().fold(0, |n, byte| n << 8 | *byte as usize);
    let tables: Vec<(&[u8], &[u8])> = (0..number(4, 2))
        .map(|at| 12 + 16 * at)
        .map(|at| (&font[at..at + 4], &font[number(at + 8, 4)..number(at + 8, 4) + number(at + 12, 4)]))
        .collect();
    let table = |tag: &[u8]| tables.iter().find(|(name, _)| *name == tag).map(|(_, bytes)| bytes.to_vec());
    let maxp = table(b"maxp").expect("a font with a maxp table");
    let glyphs = (maxp[4] as usize) << 8 | maxp[5] as usize;
    let name = path.rsplit('/').next().unwrap_or(path);
    [(Kind::Hvar, "HVAR"), (Kind::Vvar, "VVAR")]
        .into_iter()
        .filter_map(|(kind, tag)| {
            let bytes = table(tag.as_bytes())?;
            Some(Request { name: format!("{tag} of {name}"), kind, bytes, list: half(glyphs.min(4096)) })
        })
        .collect()
}
