//! Features of cutting values and of sorting results.

use ciplink::Value;

use super::Features;
use crate::plan::{PlannedRead, Step};
use crate::planner::reach;

pub fn dig(value: &Value, path: &[Step]) -> Features {
    let mut seen = Features::default();
    seen.when(path.is_empty(), "an empty path");
    seen.when(path.len() > 10, "more than ten keys");
    seen.when(path.len() == 39, "the deepest value");
    seen.when(path.iter().any(|s| matches!(s, Step::First(_))), "the first of several indexes");
    for length in 0..path.len() {
        if let Some(inner) = reach::dig(value, &path[..length]) {
            step(&mut seen, &inner, &path[length]);
        }
    }
    match reach::dig(value, path) {
        None => seen.when(true, "not there"),
        Some(Value::Array(_)) => seen.when(true, "an array cut"),
        Some(Value::Struct(_)) => seen.when(true, "a struct cut"),
        Some(Value::Text(_)) => seen.when(true, "a text cut"),
        Some(_) => seen.when(true, "a leaf cut"),
    }
    seen.0.sort_unstable();
    seen.0.dedup();
    seen
}

fn step(seen: &mut Features, value: &Value, step: &Step) {
    match (value, step) {
        (Value::Struct(members), Step::Member(name)) => {
            let alike = members.keys().filter(|k| k.eq_ignore_ascii_case(name)).count();
            let exact = members.get(name).is_some();
            let first = members.keys().find(|k| k.eq_ignore_ascii_case(name));
            seen.when(exact && alike > 1 && first != Some(name), "the exact name behind one alike");
            seen.when(!exact && alike == 1, "a name alike");
            seen.when(!exact && alike > 1, "the first of several names alike");
            seen.when(alike == 0, "no such member");
        }
        (Value::Array(items), Step::Index(i) | Step::First(i)) => {
            seen.when(*i as usize >= items.len(), "an index past the end");
        }
        _ => seen.when(true, "a key that does not go with the value"),
    }
}

/// `answer` is the sorted file.
pub fn sort(reads: &[PlannedRead], statuses: &[u8], answer: &[u8]) -> Features {
    let mut seen = Features::default();
    let entries = entries(reads, answer);
    for kind in &entries {
        let names = ["a cut", "a retry", "a result as received"];
        seen.when(true, names[usize::from(*kind)]);
    }
    seen.when(reads.is_empty(), "no reads");
    seen.when(reads.len() > 100, "more than 100 reads");
    let mut rest = entries.as_slice();
    for (position, (read, status)) in reads.iter().zip(statuses).enumerate() {
        let (mine, others) = rest.split_at(read.members.len());
        rest = others;
        let before = &reads[..position];
        one_read(&mut seen, read, *status, mine);
        seen.when(before.iter().any(|b| b.name == read.name), "a read name twice");
        let alike = |b: &PlannedRead| b.name != read.name && b.name.eq_ignore_ascii_case(&read.name);
        seen.when(before.iter().any(alike), "read names alike");
    }
    let failed = failed(answer, entries.len(), &entries);
    seen.when(!failed.is_empty(), "a failed read");
    let again = |p: &usize| failed.iter().any(|q| q < p && reads[*q].name == reads[*p].name);
    seen.when(failed.iter().any(again), "a name failed twice");
    let silent = cut_failures(reads, statuses, &entries).iter().any(|p| !failed.contains(p));
    seen.when(silent, "failed by a cut, not added");
    seen.0.sort_unstable();
    seen.0.dedup();
    seen
}

fn one_read(seen: &mut Features, read: &PlannedRead, status: u8, entries: &[u8]) {
    let plain = matches!(read.members.as_slice(), [(_, None)]);
    let pathless = read.members.iter().any(|(_, path)| path.is_none());
    let empty = read.members.iter().any(|(_, p)| p.as_ref().is_some_and(Vec::is_empty));
    seen.when(plain && status == 1, "a plain read in error");
    seen.when(plain && status == 2, "a plain read of neither");
    seen.when(!plain && status == 1, "a group in error");
    seen.when(!plain && status == 2, "a group of neither");
    seen.when(!plain && pathless && status != 1, "byte 0 beside other members");
    seen.when(empty, "a path of no keys");
    seen.when(read.members.is_empty(), "a read without members");
    seen.when(status == 0 && entries.contains(&1), "failed by a cut");
    seen.when(entries.contains(&0) && entries.contains(&1), "cut and retried in one read");
}

/// The kind of each member's entry.
fn entries(reads: &[PlannedRead], answer: &[u8]) -> Vec<u8> {
    let members: usize = reads.iter().map(|r| r.members.len()).sum();
    let mut place = 3;
    (0..members)
        .map(|_| {
            let kind = answer[place];
            place += if kind == 0 { 5 } else { 1 };
            kind
        })
        .collect()
}

fn failed(answer: &[u8], members: usize, entries: &[u8]) -> Vec<usize> {
    let cuts = entries.iter().filter(|kind| **kind == 0).count();
    let positions = &answer[3 + members + 4 * cuts + 2..];
    positions.chunks(2).map(|p| usize::from(p[0]) << 8 | usize::from(p[1])).collect()
}

/// The reads without an error of which a member is retried.
fn cut_failures(reads: &[PlannedRead], statuses: &[u8], entries: &[u8]) -> Vec<usize> {
    let mut rest = entries;
    let mut found = Vec::new();
    for (position, read) in reads.iter().enumerate() {
        let (mine, others) = rest.split_at(read.members.len());
        rest = others;
        if statuses[position] != 1 && mine.contains(&1) {
            found.push(position);
        }
    }
    found
}
