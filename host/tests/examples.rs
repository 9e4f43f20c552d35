//! Document 01's examples P1 to P10, by the safe calls.

use binlariat::{cut_hvar, cut_store, lent, read_delta, read_entry, read_row, Glyph, Pair, Refusal, WORK};

fn hex(text: &str) -> Vec<u8> {
    text.split_whitespace().map(|byte| u8::from_str_radix(byte, 16).unwrap()).collect()
}

/// Document 01's store S.
fn s() -> Vec<u8> {
    hex("00 01 00 00 00 0C 00 01 00 00 00 1C
         00 01 00 02 00 00 40 00 40 00 C0 00 C0 00 00 00
         00 03 00 01 00 02 00 00 00 01
         00 64 00 FF 38 05 00 0A 00")
}

fn p1() -> Vec<u8> {
    hex("00 01 00 00 00 0C 00 01 00 00 00 16 00 01 00 01 00 00 40 00 40 00 00 02 00 00 00 01 00 00 64 0A")
}

fn rows(inners: &[u16]) -> Vec<Pair> {
    inners.iter().map(|inner| Pair { outer: 0, inner: *inner }).collect()
}

fn glyphs(new_and_old: &[(u16, u16)]) -> Vec<Glyph> {
    new_and_old.iter().map(|(new, old)| Glyph { new: *new, old: *old }).collect()
}

/// A store with one region and one subtable, whose rows have one word column: of 4 bytes if it is long.
fn words(long: bool, deltas: &[i32]) -> Vec<u8> {
    let mut store = hex("00 01 00 00 00 0C 00 01 00 00 00 16 00 01 00 01 00 00 40 00 40 00");
    store.extend((deltas.len() as u16).to_be_bytes());
    store.extend(hex(if long { "80 01 00 01 00 00" } else { "00 01 00 01 00 00" }));
    for delta in deltas {
        store.extend(&delta.to_be_bytes()[if long { 0 } else { 2 }..]);
    }
    store
}

/// An HVAR table over a store, with an lsb map or without.
fn hvar(store: &[u8], lsb: &[u8]) -> Vec<u8> {
    let place = if lsb.is_empty() { 0 } else { 20 + store.len() as u32 };
    [&hex("00 01 00 00 00 00 00 14 00 00 00 00"), &place.to_be_bytes()[..], &[0; 4], store, lsb].concat()
}

#[test]
fn p1_rows_0_and_2() {
    assert_eq!(cut_store(&s(), &rows(&[0, 2]), false), Ok(p1()));
    let (mut work, mut out, mut written) = (vec![7; WORK], [0xA5; 40], 9);
    let number = lent::cut_store(&s(), &[0, 2], false, &mut work, &mut out[..31], &mut written);
    assert_eq!((number, written, out), (10, 0, [0xA5; 40]));
    assert!(work.iter().all(|n| *n == 0));
    assert_eq!(lent::cut_store(&s(), &[0, 2], false, &mut work[1..], &mut out, &mut written), 1);
}

#[test]
fn p2_row_1() {
    let cut = cut_store(&s(), &rows(&[1]), false).unwrap();
    assert_eq!(cut[cut.len() - 13..], hex("00 01 00 01 00 02 00 00 00 01 FF 38 05"));
}

#[test]
fn p3_a_row_past_the_count() {
    assert_eq!(read_delta(&s(), 0, 3, 0), Ok(0));
    assert_eq!(read_delta(&s(), 0, 1, 0), Ok(-200));
    assert_eq!(read_delta(&s(), 1, 0, 0), Err(Refusal::AbsentSubtable));
    assert_eq!(read_row(&s(), 0, 1), Ok(&hex("FF 38 05")[..]));
    assert_eq!(read_row(&s(), 0, 3), Ok(&[][..]));
}

#[test]
fn p4_narrow_and_wide() {
    for (delta, wide) in [(127, 0), (128, 1), (-128, 0), (-129, 1)] {
        let cut = cut_store(&words(false, &[delta]), &rows(&[0]), false).unwrap();
        assert_eq!(cut[25], wide, "words for {delta}");
        assert_eq!(read_delta(&cut, 0, 0, 0), Ok(delta));
    }
}

#[test]
fn p5_long() {
    let field = |delta| cut_store(&words(true, &[delta]), &rows(&[0]), false).map(|cut| cut[24..26].to_vec());
    assert_eq!(field(40000), Err(Refusal::MiddleWidth));
    assert_eq!(field(65536), Ok(vec![0x80, 1]));
    assert_eq!(field(65535), Err(Refusal::MiddleWidth));
    assert_eq!(field(32767), Ok(vec![0, 1]));
}

#[test]
fn p6_a_table_without_maps() {
    let cut = cut_hvar(&hvar(&s(), &[]), &glyphs(&[(0, 0), (1, 2)])).unwrap();
    let header = hex("00 01 00 00 00 00 00 14 00 00 00 34 00 00 00 00 00 00 00 00");
    assert_eq!(cut, [header, p1(), hex("00 00 00 02 00 01")].concat());
}

#[test]
fn p7_rows_that_only_another_map_names() {
    let deltas: Vec<i32> = (0..60).map(|n| n + 1).collect();
    let mut lsb = hex("00 05 00 33");
    lsb.extend([50; 50]);
    lsb.push(10);
    let cut = cut_hvar(&hvar(&words(false, &deltas), &lsb), &glyphs(&[(0, 0), (1, 50)])).unwrap();
    let place = |at: usize| u32::from_be_bytes(cut[at..at + 4].try_into().unwrap()) as usize;
    let (store, advance, lsb) = (&cut[place(4)..], &cut[place(8)..], &cut[place(12)..]);
    assert_eq!([0, 1, 2].map(|row| read_delta(store, 0, row, 0)), [Ok(1), Ok(51), Ok(11)]);
    assert_eq!((advance[1] & 15, lsb[1] & 15), (0, 1));
    assert_eq!([0, 1].map(|glyph| read_entry(lsb, glyph)), [Ok((0, 1)), Ok((0, 2))]);
}

#[test]
fn p8_entries_of_4_bytes() {
    let table = hvar(&words(false, &[1, 2, 3, 4]), &hex("00 30 00 01 00 00 00 01"));
    let cut = cut_hvar(&table, &glyphs(&[(0, 2)])).unwrap();
    assert_eq!(cut[cut.len() - 8..], hex("00 30 00 01 00 00 00 01"));
    assert_eq!(cut_hvar(&table, &glyphs(&[(0, 2), (1, 3)])), Err(Refusal::WideEntry));
}

#[test]
fn p9_nothing_varies() {
    let store = words(false, &[0, 5, 0]);
    assert_eq!(cut_store(&store, &rows(&[0, 2]), false), Err(Refusal::NothingKept));
    let empty = hex("00 01 00 00 00 0C 00 01 00 00 00 10 00 01 00 00 00 02 00 00 00 00");
    assert_eq!(cut_store(&store, &rows(&[0, 2]), true), Ok(empty));
}

#[test]
fn p10_no_pair() {
    assert_eq!(cut_store(&s(), &[], true), Ok(hex("00 01 00 00 00 08 00 00 00 01 00 00")));
}

/// A map of 65,535 entries is far longer than what came in: the output grows.
#[test]
fn the_output_grows() {
    let cut = cut_hvar(&hvar(&s(), &[]), &glyphs(&[(0, 0), (65534, 2)])).unwrap();
    assert_eq!(cut.len(), 20 + 32 + 4 + 65535);
}

#[test]
fn every_refusal_has_its_number_and_a_message() {
    for (at, refusal) in Refusal::ALL.into_iter().enumerate() {
        assert_eq!(refusal.number() as usize, at + 1);
        assert_eq!(Refusal::numbered(at as u32 + 1), Some(refusal));
        assert!(refusal.to_string().len() > 20);
    }
    assert_eq!((Refusal::numbered(0), Refusal::numbered(16)), (None, None));
}
