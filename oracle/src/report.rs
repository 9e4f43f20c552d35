//! How many calls of each kind went how.

use crate::call::Call;
use crate::compare::Verdict;
use crate::domain::Outside;
use std::collections::BTreeMap;

#[derive(Default)]
pub struct Report {
    counts: BTreeMap<(&'static str, &'static str), usize>,
    numbers: BTreeMap<u32, usize>,
    outside: BTreeMap<Outside, usize>,
    pub calls: usize,
    pub disagreements: usize,
}

impl Report {
    /// Counts a call; the first few disagreements are printed.
    pub fn count(&mut self, what: &str, call: &Call, verdict: &Verdict) {
        let column = match verdict {
            Verdict::Written => "written",
            Verdict::Refused(number) => {
                *self.numbers.entry(*number).or_default() += 1;
                "refused"
            }
            Verdict::FewInnerBits => "few bits",
            Verdict::Outside(reason) => {
                *self.outside.entry(*reason).or_default() += 1;
                "outside"
            }
            Verdict::Disagreement(_) => "DISAGREE",
        };
        *self.counts.entry((call.kind.name(), column)).or_default() += 1;
        self.calls += 1;
        if let Verdict::Disagreement(why) = verdict {
            self.disagreements += 1;
            if self.disagreements <= 5 {
                println!("disagreement in {what}: {why}");
                println!("  {:?}, list {:X?}: {}", call.kind, call.list, crate::bytes::hex(&call.bytes));
            }
        }
    }

    pub fn print(&self) {
        const COLUMNS: [&str; 5] = ["written", "few bits", "refused", "outside", "DISAGREE"];
        println!("{:8}{}", "", COLUMNS.map(|column| format!("{column:>10}")).concat());
        for kind in ["store", "hvar", "vvar"] {
            let of = |column| self.counts.get(&(kind, column)).copied().unwrap_or(0);
            println!("{kind:8}{}", COLUMNS.map(|column| format!("{:>10}", of(column))).concat());
        }
        let numbers: Vec<String> = self.numbers.iter().map(|(number, count)| format!("{number}: {count}")).collect();
        println!("refused by both, by the library's number: {}", numbers.join(", "));
        let outside: Vec<String> = self.outside.iter().map(|(reason, count)| format!("{reason:?} {count}")).collect();
        println!("outside the equality domain: {}", outside.join(", "));
        let compared = self.calls - self.outside.values().sum::<usize>();
        println!("{} calls, {compared} compared, {} disagreements", self.calls, self.disagreements);
    }
}
