//! One call on both sides.

use crate::bytes::hex;
use crate::call::{Call, Kind, Memory, Ours, Rust};
use crate::domain::{few_inner_bits, outside, Outside};
use crate::objects::{laid, objects};
use binlariat::WORK;
use skera::SubsetFlags;

/// How a call went.
#[derive(Clone, Debug, PartialEq, Eq)]
pub enum Verdict {
    /// Both wrote the same objects.
    Written,
    /// Both refused; the number is the library's.
    Refused(u32),
    /// The Rust takes too few inner bits for a map; all else is the same.
    FewInnerBits,
    /// Outside the equality domain; the library answers as document 01 says.
    Outside(Outside),
    Disagreement(String),
}

pub fn compare(memory: &mut Memory, call: &Call) -> Verdict {
    if let Some(reason) = outside(call) {
        return outside_domain(memory, call, reason);
    }
    let (rust, ours) = (call.rust(SubsetFlags::SUBSET_FLAGS_DEFAULT), memory.call_with_room(call));
    let ours = match ours {
        Ok(ours) => ours,
        Err(broken) => return Verdict::Disagreement(broken),
    };
    match (rust, ours) {
        (Rust::Refused, Err(number)) => Verdict::Refused(number),
        (Rust::Written(theirs), Ok(ours)) => both_wrote(memory, call, &theirs, &ours),
        (Rust::Written(_), Err(14)) if !few_inner_bits(call).is_empty() => Verdict::FewInnerBits,
        (rust, ours) => Verdict::Disagreement(format!("the Rust: {rust:?}; the library: {ours:?}")),
    }
}

fn both_wrote(memory: &mut Memory, call: &Call, theirs: &[u8], ours: &[u8]) -> Verdict {
    let disagree = |what: String| {
        Verdict::Disagreement(format!("{what}\n  the Rust:    {}\n  the library: {}", hex(theirs), hex(ours)))
    };
    let (Some(mut a), Some(mut b)) = (objects(call.kind, theirs), objects(call.kind, ours)) else {
        return disagree("a result whose objects don't lie inside it".into());
    };
    if laid(call.kind, &b) != ours {
        return disagree("the library's layout isn't document 01's".into());
    }
    let few = if call.kind.maps() == 0 || a == b { Vec::new() } else { few_inner_bits(call) };
    for map in &few {
        let name = format!("map {map}");
        a.iter_mut().chain(b.iter_mut()).filter(|o| o.name == name).for_each(|o| o.bytes.clear());
    }
    if a != b {
        let first = a.iter().zip(&b).find(|(a, b)| a != b).map_or("the number of objects", |(a, _)| &a.name);
        return disagree(format!("{first} differs"));
    }
    match room_is_exact(memory, call, ours) {
        Err(what) => disagree(what),
        Ok(()) if few.is_empty() => Verdict::Written,
        Ok(()) => Verdict::FewInnerBits,
    }
}

/// With exactly the room the result asks for it is written; with a byte less, refused with 10.
fn room_is_exact(memory: &mut Memory, call: &Call, ours: &[u8]) -> Result<(), String> {
    if memory.call(call, WORK + 3, ours.len())? != Ok(ours.to_vec()) {
        return Err("another answer with exactly enough room".into());
    }
    if memory.call(call, WORK, ours.len() - 1)? != Err(10) {
        return Err("not refused with 10 with a byte too little room".into());
    }
    Ok(())
}

/// Outside the domain only the library's side is asked: a list at fault is 2, all else is refused,
/// but a null store, which is version and zeros.
fn outside_domain(memory: &mut Memory, call: &Call, reason: Outside) -> Verdict {
    let answer: Ours = memory.call_with_room(call);
    let right = match (&answer, reason) {
        (Ok(Err(number)), Outside::List) => *number == 2,
        (Ok(Ok(bytes)), Outside::NullStore) => {
            call.kind == Kind::Hvar && bytes[..4] == call.bytes[..4] && bytes[4..] == [0; 16]
        }
        (Ok(Err(_)), reason) => reason != Outside::NullStore,
        _ => false,
    };
    if right {
        Verdict::Outside(reason)
    } else {
        Verdict::Disagreement(format!("{reason:?}: the library: {answer:?}"))
    }
}
