//! Cases at every limit of the port's document: an input at the limit, which is accepted and answered as the Rust does,
//! and one just over it with what the document sends back, by hand. Where the files of `damaged/` have both, they are
//! taken from there.

mod catalogs;
mod lists;
mod plans;
mod tables;
mod values;

use crate::bytes::Writer;
use crate::compare::Fixed;
use crate::damaged::Case;
use crate::kinds::Fields;
use crate::plan;
use crate::refusals::SentBack;

/// An input at a limit, and the same just over it with what is sent back. Some limits have nothing over them: a budget of
/// 65,535 is the largest number of its field.
struct Pair {
    limit: String,
    at: Vec<u8>,
    over: Option<(Vec<u8>, SentBack)>,
}

/// The cases of a call.
pub fn of(call: &str) -> Vec<Fixed> {
    match call {
        "plan" => planning(),
        "plan_chunks" => grouping(),
        "chunks" | "packets" => tables::all(),
        "dig" => values::digs(),
        "sort" => values::sorts(),
        _ => Vec::new(),
    }
}

impl Pair {
    fn new(limit: &str, at: Vec<u8>, over: Vec<u8>, number: u8, returned: u64) -> Self {
        Pair { limit: limit.to_owned(), at, over: Some((over, (number, returned))) }
    }

    fn at(limit: &str, at: Vec<u8>) -> Self {
        Pair { limit: limit.to_owned(), at, over: None }
    }

    /// Both cases, the other inputs being added.
    fn cases(&self, with: impl Fn(Vec<u8>) -> Fields) -> Vec<Fixed> {
        let mut cases = vec![Fixed { what: self.limit.clone(), fields: with(self.at.clone()), sent_back: None }];
        if let Some((over, sent_back)) = &self.over {
            let what = format!("over {}", self.limit);
            cases.push(Fixed { what, fields: with(over.clone()), sent_back: Some(*sent_back) });
        }
        cases
    }
}

/// Pairs of files by hand, each named by what it is: the accepted one, then the refused one.
fn by_hand(cases: &[Case], names: &[(&str, &str)]) -> Vec<Pair> {
    let find = |what: &str| cases.iter().find(|case| case.what == what).unwrap_or_else(|| panic!("no case {what:?}"));
    let pair = |(at, over): &(&str, &str)| {
        let (at, over) = (find(at), find(over));
        assert!(at.number == 0 && over.number != 0, "{} and {}", at.what, over.what);
        Pair::new(
            &format!("{} ({})", at.what, over.what),
            at.file.clone(),
            over.file.clone(),
            over.number,
            over.returned,
        )
    };
    names.iter().map(pair).collect()
}

fn planning() -> Vec<Fixed> {
    let mut cases = Vec::new();
    for (pair, list) in catalogs::all() {
        cases.extend(pair.cases(|catalog| vec![catalog, list.write()]));
    }
    let bench = crate::hand::catalogs::bench().write();
    for pair in lists::all() {
        cases.extend(pair.cases(|list| vec![bench.clone(), list]));
    }
    cases
}

/// The reads of a catalog at a limit are those that the Rust plans for the list that goes with it.
fn grouping() -> Vec<Fixed> {
    let mut cases = Vec::new();
    for (pair, list) in catalogs::all() {
        let reads = plan::answer(&pair.at, &list.write()).expect("an accepted catalog is planned");
        cases.extend(pair.cases(|catalog| vec![catalog, reads.clone(), budget(4000)]));
    }
    let bench = crate::hand::catalogs::bench().write();
    for pair in plans::all() {
        cases.extend(pair.cases(|reads| vec![bench.clone(), reads, budget(4000)]));
    }
    for (limit, given) in [("budget 0", 0), ("budget 65,535", u16::MAX)] {
        let pair = Pair::at(limit, plans::in_use(20));
        cases.extend(pair.cases(|reads| vec![bench.clone(), reads, budget(given)]));
    }
    cases
}

fn budget(budget: u16) -> Vec<u8> {
    let mut writer = Writer::default();
    writer.number(2, budget.into());
    writer.file
}

#[cfg(test)]
#[path = "extremes_tests.rs"]
mod tests;
