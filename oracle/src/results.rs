//! The results file and its sorting by the Rust's `execute` on one chunk. `execute` answers by tag, so each member
//! gets a tag of its own first; which read a failed name belongs to is seen by giving it one read more each time.

use std::collections::HashMap;

use ciplink::Value;
use ciplink::cip::{TagError, TagResult};
use serde_json::Value as Json;

use crate::bytes::{Reader, Writer};
use crate::plan::{self, PlannedRead};
use crate::planner::{Read, execute, reach};
use crate::plc::{Catalog, Plc};
use crate::value::{Plain, read_value, write_value};

pub const LIMIT: usize = 65_536;

/// What came back for one read, to be written.
#[derive(Clone, Debug, PartialEq, Eq)]
pub enum Outcome {
    Value(Plain),
    Error,
    Neither,
}

/// The sorted answer of a plan and its results.
pub fn sort(plan: &[u8], results: &[u8]) -> Result<Vec<u8>, String> {
    let (reads, results) = (plan::read(plan)?, read(results)?);
    if reads.len() != results.len() {
        return Err("as many results as reads are needed".to_owned());
    }
    let reads = number_members(&reads);
    let (entries, failed) = run(&reads, &results);
    let members: usize = reads.iter().map(|r| r.members.len()).sum();
    let mut writer = Writer::versioned();
    writer.count(2, members);
    for member in 0..members {
        match place(&entries[&member.to_string()]) {
            Entry::Cut(place) => writer.number(1, 0).count(4, place),
            Entry::Retry => writer.number(1, 1),
            Entry::Received => writer.number(1, 2),
        };
    }
    let positions = failed_positions(&reads, &results);
    assert_eq!(positions.len(), failed.len(), "one position for each failed name");
    writer.count(2, positions.len());
    for position in positions {
        writer.count(2, position);
    }
    Ok(writer.file)
}

pub fn read(file: &[u8]) -> Result<Vec<TagResult>, String> {
    let mut reader = Reader::versioned(file, LIMIT).map_err(|e| format!("results: {e}"))?;
    read_all(&mut reader).map_err(|e| format!("results: {e}"))
}

pub fn write(outcomes: &[Outcome]) -> Vec<u8> {
    let mut writer = Writer::versioned();
    writer.count(2, outcomes.len());
    for outcome in outcomes {
        match outcome {
            Outcome::Value(value) => write_value(writer.number(1, 0), value),
            Outcome::Error => drop(writer.number(1, 1)),
            Outcome::Neither => drop(writer.number(1, 2)),
        }
    }
    writer.file
}

const RECEIVED: &str = "received";
const RETRIED: &str = "retried";

fn read_all(reader: &mut Reader) -> Result<Vec<TagResult>, String> {
    let count = reader.number(2)?;
    let results = (0..count)
        .map(|_| {
            let status = reader.limited(1, 2)?;
            let value = (status == 0).then(|| read_value(reader, 1)).transpose()?;
            Ok(result(RECEIVED, value, status == 1))
        })
        .collect::<Result<_, String>>()?;
    reader.end()?;
    Ok(results)
}

fn result(from: &str, value: Option<Value>, failed: bool) -> TagResult {
    let message = "no value".to_owned();
    TagResult {
        tag: String::new(),
        value,
        data_type: Some(from.to_owned()),
        error: failed.then_some(TagError { message }),
    }
}

/// The reads with each member's number in the plan as its tag.
fn number_members(reads: &[PlannedRead]) -> Vec<Read> {
    let mut number = 0;
    let mut next = || {
        number += 1;
        (number - 1).to_string()
    };
    let numbered = |read: &PlannedRead| Read {
        name: read.name.clone(),
        members: read.members.iter().map(|(_, path)| (next(), path.as_deref().map(reach::keys))).collect(),
    };
    reads.iter().map(numbered).collect()
}

enum Entry {
    Cut(usize),
    Retry,
    Received,
}

/// Results as received and retried say so in their type; what `execute` cuts has none.
fn place(result: &TagResult) -> Entry {
    match (result.data_type.as_deref(), &result.value) {
        (Some(RECEIVED), _) => Entry::Received,
        (Some(_), _) => Entry::Retry,
        (None, value) => {
            let place = value.as_ref().and_then(Value::place);
            Entry::Cut(place.expect("a cut value has its place"))
        }
    }
}

/// `execute` on one chunk of these reads and results: the entries by tag and the failed names.
fn run(reads: &[Read], results: &[TagResult]) -> (HashMap<String, TagResult>, Vec<String>) {
    let mut plc = Answers { first: Some(results.to_vec()), later: result(RETRIED, None, false) };
    let chunks = [reads.to_vec()];
    let mut between = |_: &mut dyn Plc, _| Err("one chunk has nothing between".to_owned());
    let answer = execute(&mut plc, &chunks, &mut between);
    let (entries, failed, _) = answer.expect("no connection is lost here");
    (entries, failed)
}

/// The reads that `execute` adds to the failed names: those with which the list of names grows.
fn failed_positions(reads: &[Read], results: &[TagResult]) -> Vec<usize> {
    let mut before = 0;
    let mut positions = Vec::new();
    for position in 0..reads.len() {
        let (_, failed) = run(&reads[..=position], &results[..=position]);
        assert!(failed.len() <= before + 1, "a read fails at most once");
        if failed.len() > before {
            positions.push(position);
        }
        before = failed.len();
    }
    positions
}

/// A controller that gives its first results to one read, and the later result for each tag to every read after that.
pub struct Answers {
    pub first: Option<Vec<TagResult>>,
    pub later: TagResult,
}

impl Plc for Answers {
    fn open(&mut self) -> Result<(), String> {
        Ok(())
    }

    fn close(&mut self) {}

    fn read(&mut self, tags: &[&str]) -> Result<Vec<TagResult>, String> {
        let later = || vec![self.later.clone(); tags.len()];
        Ok(self.first.take().unwrap_or_else(later))
    }

    fn write(&mut self, _: &str, _: &Value) -> Result<TagResult, String> {
        Err("nothing is written".to_owned())
    }

    fn catalog(&mut self) -> Catalog {
        Catalog::default()
    }

    fn version(&mut self) -> Json {
        Json::Null
    }

    fn connection_size(&self) -> usize {
        0
    }
}
