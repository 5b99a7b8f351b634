//! Files, most of them damaged, each with the refusal that the port's document sets for it. The Rust knows no refusals,
//! so the numbers and places are written down here by hand, from the document's table alone.

pub mod catalogs;
pub mod lists;
pub mod plans;
pub mod values;

use crate::bytes::Writer;

/// A file and what is sent back for it: the refusal's number and what it returns, both 0 if it is accepted.
pub struct Case {
    /// What is wrong with the file, or what it has at a limit.
    pub what: String,
    pub file: Vec<u8>,
    pub number: u8,
    pub returned: u64,
}

impl Case {
    /// The answer as it is stored: the number, then 8 bytes.
    pub fn answer(&self) -> Vec<u8> {
        let mut writer = Writer::default();
        writer.number(1, self.number.into()).number(8, self.returned);
        writer.file
    }
}

fn accepted(what: &str, file: Vec<u8>) -> Case {
    refused(what, file, 0, 0)
}

fn refused(what: &str, file: Vec<u8>, number: u8, returned: u64) -> Case {
    Case { what: what.to_owned(), file, number, returned }
}

/// What is put over a sample: what it is, from which place on, the bytes, the refusal's number and its place.
type Over = (&'static str, usize, &'static [u8], u8, u64);

fn overwritten(sample: &[u8], over: &[Over]) -> Vec<Case> {
    let case = |(what, place, bytes, number, returned): &Over| {
        let mut file = sample.to_vec();
        file[*place..place + bytes.len()].copy_from_slice(bytes);
        refused(what, file, *number, *returned)
    };
    over.iter().map(case).collect()
}

/// A sample cut at every place behind the version: the last field that starts there or before is past the end.
fn cut(sample: &[u8], starts: &[usize]) -> Vec<Case> {
    let case = |length: usize| {
        let start = starts.iter().rev().find(|s| **s <= length).expect("a field starts at 1");
        refused(&format!("the first {length} bytes of the sample"), sample[..length].to_vec(), 3, *start as u64)
    };
    (1..sample.len()).map(case).collect()
}

/// The cases, and behind them those of each function in turn.
fn followed(mut cases: Vec<Case>, by: &[fn() -> Vec<Case>]) -> Vec<Case> {
    cases.extend(by.iter().flat_map(|further| further()));
    cases
}
