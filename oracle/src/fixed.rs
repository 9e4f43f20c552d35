//! The fixed list: answers kept as data, to be played with no Rust at hand.
//!
//! A file is a count and that many records. All numbers are big-endian, of 4 bytes. A record is seven numbers,
//! then the bytes of the store or table, the numbers of the list, and the bytes of the answer:
//! kind (0 store, 1 store with keep-empty, 2 HVAR, 3 VVAR), length of the store or table, numbers in the list,
//! numbers in the work area, room in the output, the refusal's number or 0, length of the answer.

use crate::bytes::put;
use crate::call::{Call, Kind, Memory};
use crate::compare::{compare, Verdict};
use crate::domain::Outside;
use crate::draw::Draw;
use crate::{edges, make};
use binlariat::WORK;
use std::collections::BTreeMap;

const SEED: u64 = 2048;
/// A random call is taken if its bytes, its list and its answer are no longer, in bytes; one at a limit may be longer.
const SMALL: usize = 220;
const LARGE: usize = 20_000;

/// Calls with their answers, and how many there are of each kind and number.
#[derive(Default)]
struct List {
    records: Vec<Vec<u8>>,
    taken: BTreeMap<(usize, u32), usize>,
}

fn kind_number(kind: Kind) -> usize {
    match kind {
        Kind::Store { keep_empty } => keep_empty as usize,
        Kind::Hvar => 2,
        Kind::Vvar => 3,
    }
}

impl List {
    /// Adds a call with the library's answer, unless there are `most` of its kind and number.
    fn add(&mut self, memory: &mut Memory, call: &Call, work: usize, room: usize, most: usize) {
        let answer = memory.call(call, work, room).expect("a kept promise");
        let number = answer.as_ref().err().copied().unwrap_or(0);
        let bytes = answer.unwrap_or_default();
        let kind = kind_number(call.kind);
        let taken = self.taken.entry((kind, number)).or_default();
        if *taken >= most {
            return;
        }
        *taken += 1;
        let mut record = Vec::new();
        for n in [kind, call.bytes.len(), call.list.len(), work, room, number as usize, bytes.len()] {
            put(&mut record, n, 4);
        }
        record.extend(&call.bytes);
        call.list.iter().for_each(|n| put(&mut record, *n as usize, 4));
        record.extend(&bytes);
        self.records.push(record);
    }
}

/// The length of a call's answer, if nothing of it is longer than `most` bytes.
fn length(memory: &mut Memory, call: &Call, most: usize) -> Option<usize> {
    let answer = memory.call_with_room(call).expect("a kept promise").unwrap_or_default();
    let longest = call.bytes.len().max(4 * call.list.len()).max(answer.len());
    (longest <= most).then_some(answer.len())
}

/// Writes the list; the number of the Rust's answers in it, and of all records.
pub fn write(path: &str) -> std::io::Result<(usize, usize)> {
    let (mut memory, mut list, mut draw) = (Memory::new(), List::default(), Draw::new(SEED));
    let mut small = Vec::new();
    for _ in 0..60_000 {
        let call = make::call(&mut draw);
        if let Some(length) = length(&mut memory, &call, SMALL) {
            let verdict = compare(&mut memory, &call);
            small.push((call, verdict, length));
        }
    }
    for edge in edges::edges() {
        let agreed = matches!(compare(&mut memory, &edge.call), Verdict::Written | Verdict::Refused(_));
        if agreed && length(&mut memory, &edge.call, LARGE).is_some() {
            list.add(&mut memory, &edge.call, WORK, LARGE, usize::MAX);
        }
    }
    for (call, verdict, _) in &small {
        match verdict {
            Verdict::Written => list.add(&mut memory, call, WORK, SMALL, 360),
            Verdict::Refused(_) => list.add(&mut memory, call, WORK, SMALL, 30),
            _ => {}
        }
    }
    let of_the_rust = list.records.len();
    for (call, verdict, length) in &small {
        match verdict {
            Verdict::Written => {
                list.add(&mut memory, call, WORK, length - 1, 15);
                list.add(&mut memory, call, WORK - 1, SMALL, 5);
            }
            Verdict::Outside(Outside::List | Outside::NoSubtable | Outside::Outer) => {
                list.add(&mut memory, call, WORK, SMALL, 20)
            }
            _ => {}
        }
    }
    let mut file = Vec::new();
    put(&mut file, list.records.len(), 4);
    list.records.iter().for_each(|record| file.extend(record));
    std::fs::write(path, file)?;
    print_numbers(&list.taken);
    Ok((of_the_rust, list.records.len()))
}

fn print_numbers(taken: &BTreeMap<(usize, u32), usize>) {
    for (kind, name) in ["store", "store, keep-empty", "hvar", "vvar"].iter().enumerate() {
        let of = taken.iter().filter(|(key, _)| key.0 == kind);
        let numbers: Vec<String> = of.map(|(key, count)| format!("{}: {count}", key.1)).collect();
        println!("{name}, by number: {}", numbers.join(", "));
    }
}
