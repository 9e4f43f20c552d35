//! Runs the library side by side with the Rust it came from.
//!
//! `oracle SEED COUNT` shows the known departures, tries the calls at the limits, then COUNT random calls.
//! `oracle list FILE` writes the fixed list of answers.

mod bytes;
mod call;
mod compare;
mod departures;
mod domain;
mod draw;
mod edges;
mod fixed;
mod make;
mod objects;
mod report;
mod shape;

use call::Memory;
use compare::{compare, Verdict};
use draw::Draw;
use report::Report;
use std::process::ExitCode;

fn main() -> ExitCode {
    // A panic of the Rust is an answer; it needs no trace.
    std::panic::set_hook(Box::new(|_| ()));
    let args: Vec<String> = std::env::args().skip(1).collect();
    let number = |at: usize| args.get(at).and_then(|arg| arg.parse().ok());
    match (number(0), number(1), args.len()) {
        (Some(seed), Some(count), 2) => run(seed, count as usize),
        (None, None, 2) if args[0] == "list" => list(&args[1]),
        _ => {
            eprintln!("usage: oracle/run SEED COUNT, or oracle/run list FILE");
            ExitCode::from(64)
        }
    }
}

fn list(path: &str) -> ExitCode {
    match fixed::write(path) {
        Ok((of_the_rust, all)) => {
            println!("{path}: {all} calls, {of_the_rust} of them the Rust's own answers");
            ExitCode::SUCCESS
        }
        Err(error) => {
            eprintln!("{path}: {error}");
            ExitCode::FAILURE
        }
    }
}

fn run(seed: u64, count: usize) -> ExitCode {
    let mut memory = Memory::new();
    let wrong = departures::show(&mut memory);
    println!("\nat the limits:");
    let mut limits = Report::default();
    for edge in edges::edges() {
        let verdict = at_edge(&mut memory, &edge);
        limits.count(&edge.what, &edge.call, &verdict);
        if matches!(verdict, Verdict::Outside(_)) {
            departures::show_past_limit(&edge.what, &edge.call, edge.number);
        }
    }
    limits.print();
    println!("\nseed {seed}:");
    let mut random = Report::default();
    let mut draw = Draw::new(seed);
    for number in 0..count {
        let call = make::call(&mut draw);
        random.count(&format!("call {number}"), &call, &compare(&mut memory, &call));
    }
    random.print();
    let failed = wrong + limits.disagreements + random.disagreements;
    println!("{} departures not as known", wrong);
    ExitCode::from((failed != 0) as u8)
}

/// The two sides compared, and the library held to the number that document 01 gives.
fn at_edge(memory: &mut Memory, edge: &edges::Edge) -> Verdict {
    let verdict = compare(memory, &edge.call);
    let number = match memory.call_with_room(&edge.call) {
        Ok(answer) => answer.err().unwrap_or(0),
        Err(broken) => return Verdict::Disagreement(broken),
    };
    match verdict {
        Verdict::Disagreement(_) => verdict,
        _ if number == edge.number => verdict,
        _ => Verdict::Disagreement(format!("{} where document 01 gives {}", number, edge.number)),
    }
}
