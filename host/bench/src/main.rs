//! Times the library and the Rust it came from on the same requests, one after the other.
//!
//! The Rust is given its plan ready made; the library is given its list as it is, and checks it. Each side
//! runs in turns for several rounds, and the quickest round of each counts. Fonts named as arguments are
//! cut to every second glyph.

mod requests;

use binlariat::{lent, WORK};
use requests::{Kind, Request};
use skera::{Kept, Plan};
use std::hint::black_box;
use std::time::{Duration, Instant};

const ROUNDS: usize = 9;
const ROUND: Duration = Duration::from_millis(60);

fn main() {
    let fonts: Vec<String> = std::env::args().skip(1).collect();
    println!("{:44}{:>12}{:>12}{:>8}{:>10}", "request", "library ns", "Rust ns", "ratio", "bytes out");
    for request in requests::made().into_iter().chain(fonts.iter().flat_map(|path| requests::of_font(path))) {
        let mut memory = Memory { work: vec![0; WORK], out: vec![0; 1 << 20], written: 0 };
        let ours = || memory.cut(&request);
        let theirs = Theirs::of(&request);
        let (ours, theirs) = race(ours, || theirs.cut(&request));
        let ratio = theirs / ours;
        println!("{:44}{ours:>12.0}{theirs:>12.0}{ratio:>8.1}{:>10}", request.name, memory.written);
    }
}

/// What the library is lent.
struct Memory {
    work: Vec<u32>,
    out: Vec<u8>,
    written: usize,
}

impl Memory {
    fn cut(&mut self, request: &Request) {
        let (bytes, list) = (black_box(&request.bytes[..]), black_box(&request.list[..]));
        let Memory { work, out, written } = self;
        let number = match request.kind {
            Kind::Store => lent::cut_store(bytes, list, false, work, out, written),
            Kind::Hvar => lent::cut_hvar(bytes, list, work, out, written),
            Kind::Vvar => lent::cut_vvar(bytes, list, work, out, written),
        };
        assert_eq!(number, 0, "{}: refused", request.name);
        black_box(&self.out[..self.written]);
    }
}

/// What the Rust is given beside the bytes.
struct Theirs {
    kept: Kept,
    plan: Plan,
}

impl Theirs {
    fn of(request: &Request) -> Self {
        let store = request.kind == Kind::Store;
        Self {
            kept: Kept::of(if store { &request.list } else { &[] }),
            plan: Plan::of(if store { &[] } else { &request.list }, Default::default()),
        }
    }

    fn cut(&self, request: &Request) {
        let bytes = black_box(&request.bytes[..]);
        let cut = match request.kind {
            Kind::Store => skera::cut_store(bytes, &self.kept, false),
            Kind::Hvar => skera::cut_hvar(bytes, &self.plan),
            Kind::Vvar => skera::cut_vvar(bytes, &self.plan),
        };
        black_box(cut.expect("an accepted request"));
    }
}

/// Nanoseconds a call of each of two, from the quickest of rounds that take turns.
fn race(mut a: impl FnMut(), mut b: impl FnMut()) -> (f64, f64) {
    let (calls_a, calls_b) = (calls_in_a_round(&mut a), calls_in_a_round(&mut b));
    let mut best = (f64::MAX, f64::MAX);
    for _ in 0..ROUNDS {
        best.0 = best.0.min(per_call(&mut a, calls_a));
        best.1 = best.1.min(per_call(&mut b, calls_b));
    }
    best
}

fn calls_in_a_round(call: &mut impl FnMut()) -> usize {
    let (start, mut calls) = (Instant::now(), 0);
    while start.elapsed() < ROUND {
        call();
        calls += 1;
    }
    calls
}

fn per_call(call: &mut impl FnMut(), calls: usize) -> f64 {
    let start = Instant::now();
    for _ in 0..calls {
        call();
    }
    start.elapsed().as_nanos() as f64 / calls as f64
}
