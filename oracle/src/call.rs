//! A call, and what each side answers.

use binlariat::{lent, WORK};
use skera::{Kept, Plan, SubsetFlags};
use std::panic::{catch_unwind, AssertUnwindSafe};

#[derive(Clone, Copy, Debug, PartialEq, Eq)]
pub enum Kind {
    Store { keep_empty: bool },
    Hvar,
    Vvar,
}

impl Kind {
    /// The number of maps in the table's header; a store has none.
    pub fn maps(self) -> usize {
        match self {
            Kind::Store { .. } => 0,
            Kind::Hvar => 3,
            Kind::Vvar => 4,
        }
    }

    pub fn name(self) -> &'static str {
        match self {
            Kind::Store { .. } => "store",
            Kind::Hvar => "hvar",
            Kind::Vvar => "vvar",
        }
    }
}

/// The bytes of a store or a table, and the list of pairs or glyphs.
#[derive(Clone, Debug)]
pub struct Call {
    pub kind: Kind,
    pub bytes: Vec<u8>,
    pub list: Vec<u32>,
}

/// What the Rust does.
#[derive(Clone, Debug, PartialEq, Eq)]
pub enum Rust {
    Written(Vec<u8>),
    Refused,
    Panicked,
}

impl Call {
    pub fn rust(&self, flags: SubsetFlags) -> Rust {
        let ran = catch_unwind(AssertUnwindSafe(|| match self.kind {
            Kind::Store { keep_empty } => skera::cut_store(&self.bytes, &Kept::of(&self.list), keep_empty),
            Kind::Hvar => skera::cut_hvar(&self.bytes, &Plan::of(&self.list, flags)),
            Kind::Vvar => skera::cut_vvar(&self.bytes, &Plan::of(&self.list, flags)),
        }));
        match ran {
            Ok(Some(bytes)) => Rust::Written(bytes),
            Ok(None) => Rust::Refused,
            Err(_) => Rust::Panicked,
        }
    }
}

/// Memory that is lent to the library, marked so that a stray write shows.
pub struct Memory {
    work: Vec<u32>,
    out: Vec<u8>,
}

/// What the library does: bytes or a number; an error where it broke its promise on lent memory.
pub type Ours = Result<Result<Vec<u8>, u32>, String>;

const WORK_MARK: u32 = 0xA5A5_5A5A;
const OUT_MARK: u8 = 0xA5;

impl Memory {
    pub fn new() -> Self {
        Self { work: Vec::new(), out: Vec::new() }
    }

    /// Calls the library with this much work area and room, and looks at all that it was lent.
    pub fn call(&mut self, call: &Call, work: usize, room: usize) -> Ours {
        self.work.clear();
        self.work.resize(work, WORK_MARK);
        self.out.clear();
        self.out.resize(room, OUT_MARK);
        let mut written = usize::MAX;
        let (bytes, list) = (&call.bytes[..], &call.list[..]);
        let number = match call.kind {
            Kind::Store { keep_empty } => {
                lent::cut_store(bytes, list, keep_empty, &mut self.work, &mut self.out, &mut written)
            }
            Kind::Hvar => lent::cut_hvar(bytes, list, &mut self.work, &mut self.out, &mut written),
            Kind::Vvar => lent::cut_vvar(bytes, list, &mut self.work, &mut self.out, &mut written),
        };
        if written > room || number != 0 && written != 0 {
            return Err(format!("answer {number} with a length of {written} and room for {room}"));
        }
        if self.out[written..].iter().any(|byte| *byte != OUT_MARK) {
            return Err(format!("answer {number}: output past {written} bytes has changed"));
        }
        let cleared = if number == 1 { 0 } else { WORK };
        if self.work[..cleared].iter().any(|n| *n != 0) || self.work[cleared..].iter().any(|n| *n != WORK_MARK) {
            return Err(format!("answer {number}: the work area isn't as promised"));
        }
        Ok(if number == 0 { Ok(self.out[..written].to_vec()) } else { Err(number) })
    }

    /// Calls with enough work area and as much room as the result asks for.
    pub fn call_with_room(&mut self, call: &Call) -> Ours {
        let mut room = 64 + 2 * call.bytes.len();
        loop {
            match self.call(call, WORK, room) {
                Ok(Err(10)) => room *= 4,
                answer => return answer,
            }
        }
    }
}
