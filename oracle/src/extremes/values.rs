//! Values with paths, and plans with results, at their limits.

use super::{Pair, by_hand, plans};
use crate::compare::Fixed;
use crate::damaged;
use crate::hand::values::{leaf, member, motor};
use crate::plan::{self, PlannedRead, Step};
use crate::results::{self, LIMIT, Outcome};
use crate::value::{self, Plain};

/// What the value files by hand are called, at a limit and over it. The first is too long to be a result.
const BY_HAND: &[(&str, &str)] = &[
    ("13,105 items in 65,536 bytes", "65,537 bytes, and version 2"),
    ("the sample as it is", "version 0"),
    ("the sample as it is", "version 2"),
    ("40 levels of arrays", "41 levels of arrays"),
    ("39 levels of arrays and a leaf", "40 levels of arrays and a leaf"),
    ("39 levels of structs and a leaf", "40 levels of structs and a leaf"),
    ("20 structs, 19 arrays and a leaf", "20 structs, 20 arrays and a leaf"),
    ("a name of 128 bytes", "a name of 129 bytes"),
    ("a name of the bytes 32 and 126", "a name with the byte 31 first"),
    ("a name of the bytes 32 and 126", "a name with the byte 127 last"),
    ("a text of all the bytes", "a kind byte 4"),
    ("the sample as it is", "a spare byte behind the sample"),
];
/// From here on they can be results: no version is told.
const RESULTS: usize = 3;

/// Paths that lead to the innermost values of these, to the last item, or nowhere.
fn paths() -> Vec<Vec<Step>> {
    let mixed = [vec![member("M"); 20], vec![Step::Index(0); 19]].concat();
    let name = member(&"X".repeat(128));
    vec![vec![], vec![Step::Index(0); 39], vec![member("m"); 39], mixed, vec![Step::Index(13_104)], vec![name]]
}

pub fn digs() -> Vec<Fixed> {
    let mut cases = Vec::new();
    for pair in by_hand(&damaged::values::all(), BY_HAND) {
        for path in paths() {
            cases.extend(pair.cases(|value| vec![value, plan::write_path(&path)]));
        }
    }
    let named = Plain::Struct(vec![("X".repeat(128), motor()), ("~".to_owned(), motor())]);
    let deepest = (1..40).fold(leaf(7), |inner, _| Plain::Array(vec![inner]));
    for value in [named, deepest] {
        for pair in path_limits() {
            cases.extend(pair.cases(|path| vec![value::write(&value), path]));
        }
    }
    cases
}

/// Paths at their limits: the key count stands at 0, the first key byte at 1 and its text at 2.
fn path_limits() -> Vec<Pair> {
    let keys = |count: usize| plan::write_path(&vec![Step::Index(0); count]);
    let text = |count: usize| plan::write_path(&[member(&"x".repeat(count))]);
    let byte = |byte: u8| plan::write_path(&[member(&char::from(byte).to_string())]);
    let first = plan::write_path(&[Step::First(0)]);
    let third = [&first[..1], &[3], &first[2..]].concat();
    vec![
        Pair::new("64 keys", keys(64), keys(65), 5, 0),
        Pair::new("a key text of 128 bytes", text(128), text(129), 5, 2),
        Pair::new("a key text of the byte 126", byte(126), byte(127), 4, 3),
        Pair::new("a key text of the byte 32", byte(32), byte(31), 4, 3),
        Pair::new("a key byte 2", first, third, 4, 1),
        Pair::new("no keys", vec![0], vec![], 3, 0),
        Pair::new("a path's last byte", keys(1), [keys(1), vec![0]].concat(), 3, 6),
        Pair::at("an index of 4,294,967,295", plan::write_path(&[Step::Index(u32::MAX)])),
    ]
}

pub fn sorts() -> Vec<Fixed> {
    let mut cases = Vec::new();
    for pair in plans::all() {
        let count = plan::read(&pair.at).expect("a plan at its limit is accepted").len();
        cases.extend(pair.cases(|reads| vec![reads, results::write(&outcomes(count))]));
    }
    let cutting = plan::write(&[cutting()]);
    for pair in result_limits() {
        cases.extend(pair.cases(|results| vec![cutting.clone(), results]));
    }
    cases.extend(counts());
    cases.push(longest());
    cases
}

/// Results of every status in turn.
fn outcomes(count: usize) -> Vec<Outcome> {
    (0..count)
        .map(|n| match n % 4 {
            1 => Outcome::Error,
            3 => Outcome::Neither,
            _ => Outcome::Value(motor()),
        })
        .collect()
}

/// A read with a member for each path, and one without.
fn cutting() -> PlannedRead {
    let mut members: Vec<_> = paths().into_iter().map(|path| ("t".to_owned(), Some(path))).collect();
    members.push(("t".to_owned(), None));
    PlannedRead { name: "Motor".to_owned(), members }
}

/// One result: the values by hand, their places being three bytes further on, and files of the longest length. The first
/// status stands at 3.
fn result_limits() -> Vec<Pair> {
    let wrapped = |value: &[u8]| [&[1, 0, 1, 0], &value[1..]].concat();
    let values = by_hand(&damaged::values::all(), &BY_HAND[RESULTS..]);
    let mut pairs: Vec<Pair> = Vec::new();
    for Pair { limit, at, over } in values {
        let over = over.map(|(file, (number, place))| (wrapped(&file), (number, place + 3)));
        pairs.push(Pair { limit, at: wrapped(&at), over });
    }
    let long = |bytes: usize| results::write(&[Outcome::Value(Plain::Leaf(vec![9; bytes]))]);
    let file = |version: u8, status: u8| vec![version, 0, 1, status];
    pairs.push(Pair::new("results of 65,536 bytes", long(65_527), long(65_528), 1, LIMIT as u64));
    pairs.push(Pair::new("results of version 1", file(1, 1), file(2, 1), 2, 0));
    pairs.push(Pair::new("status 2", file(1, 2), file(1, 3), 4, 3));
    pairs
}

/// As many results as reads, one fewer and one more.
fn counts() -> Vec<Fixed> {
    let mut cases = Vec::new();
    for reads in [1, 256] {
        for (results, sent_back) in [(reads, None), (reads - 1, Some(reads - 1)), (reads + 1, Some(reads))] {
            let fields = vec![plans::in_use(reads), results::write(&outcomes(results))];
            let sent_back = sent_back.map(|count| (11, count as u64));
            cases.push(Fixed { what: format!("{results} results for {reads} reads"), fields, sent_back });
        }
    }
    cases
}

/// A sorted answer that is longer than a file may be which is an input: 84 reads of 256 members, each cut.
fn longest() -> Fixed {
    let read = PlannedRead { name: String::new(), members: vec![(String::new(), Some(vec![])); 256] };
    let fields = vec![plan::write(&vec![read; 84]), results::write(&vec![Outcome::Value(leaf(7)); 84])];
    Fixed { what: "a sorted answer of more than 65,536 bytes".to_owned(), fields, sent_back: None }
}
