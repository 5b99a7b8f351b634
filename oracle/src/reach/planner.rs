//! A window into planner.rs: it is compiled as a module inside it, and hands on what its private functions answer in
//! types of our own. It is also compiled inside the counting copy.

use std::collections::HashSet;

use ciplink::Value;

use super::{Key, Read, Tok};
use crate::list::List;
use crate::plan::{PlannedRead, Step};
use crate::plc::Catalog;

/// A token of a name: where it ends, and its indexes (none for a name).
#[derive(Clone, Debug, PartialEq, Eq)]
pub struct Token {
    pub end: usize,
    pub indexes: Vec<usize>,
}

pub fn tokens(name: &str) -> Option<Vec<Token>> {
    let mut end = 0;
    let tokens = super::tokenize(name)?.into_iter().map(|token| {
        end += token.text.len();
        let indexes = match token.key {
            Tok::Name(_) => Vec::new(),
            Tok::Index(index) => vec![index],
            Tok::Multi(indexes) => indexes,
        };
        Token { end, indexes }
    });
    Some(tokens.collect())
}

pub fn range(name: &str) -> Option<(&str, usize)> {
    super::range(name)
}

pub fn request_size(name: &str, catalog: &Catalog) -> usize {
    super::request_size(name, catalog)
}

pub fn reply_size(name: &str, catalog: &Catalog) -> usize {
    super::reply_size(catalog.info(name))
}

pub fn read_size(name: &str, catalog: &Catalog) -> (usize, usize) {
    super::read_size(name, catalog)
}

pub fn element_size(name: &str, catalog: &Catalog) -> Option<usize> {
    super::element_size(catalog.info(name))
}

pub fn pack(sizes: &[(usize, usize)], budget: usize) -> (Vec<Vec<usize>>, usize) {
    super::pack(sizes, budget)
}

/// The plan of a list: its together names stand for the closure.
pub fn plan(list: &List, catalog: &Catalog) -> Vec<PlannedRead> {
    let no_group: HashSet<String> = list.no_group.iter().cloned().collect();
    let together = |name: &str| list.together.iter().any(|t| t.eq_ignore_ascii_case(name));
    let (maximum, budget) = (u64::from(list.whole_max), usize::from(list.budget));
    super::plan(&list.tags, catalog, maximum, &no_group, budget, Some(&together))
        .into_iter()
        .map(planned)
        .collect()
}

/// How `chunks` splits the reads, by their positions.
pub fn chunks(reads: &[PlannedRead], catalog: &Catalog, budget: usize) -> Vec<Vec<usize>> {
    let numbered = reads.iter().enumerate().map(|(position, read)| Read {
        name: read.name.clone(),
        members: vec![(position.to_string(), None)],
    });
    let position = |read: &Read| read.members[0].0.parse().expect("a position");
    super::chunks(numbered.collect(), catalog, budget)
        .iter()
        .map(|chunk| chunk.iter().map(position).collect())
        .collect()
}

pub fn dig(value: &Value, path: &[Step]) -> Option<Value> {
    super::dig(value, &keys(path))
}

/// Our steps as the planner's keys.
pub fn keys(path: &[Step]) -> Vec<Key> {
    let key = |step: &Step| match step {
        Step::Member(name) => Key::Member(name.clone()),
        Step::Index(i) | Step::First(i) => Key::Index(*i as usize),
    };
    path.iter().map(key).collect()
}

fn planned(read: Read) -> PlannedRead {
    let step = |key: Key| match key {
        Key::Member(name) => Step::Member(name),
        Key::Index(i) => Step::Index(u32::try_from(i).expect("indexes are at most 1,000,000")),
    };
    PlannedRead {
        name: read.name,
        members: read
            .members
            .into_iter()
            .map(|(tag, path)| (tag, path.map(|keys| keys.into_iter().map(step).collect())))
            .collect(),
    }
}
