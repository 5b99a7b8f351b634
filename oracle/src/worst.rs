//! How long the library takes for catalogs made up to take long: each as large as the limits allow.

use std::time::Instant;

use crate::catalog::{Catalog, LIMIT, MOST_MEMBERS, MOST_TAGS, MOST_TYPES, Node, STRUCT, Type};
use crate::library::Library;

/// How often each call is made; the shortest time counts.
const TIMES: usize = 20;
/// The chains that names are put on by the check for names that are alike.
const CHAINS: usize = 1024;
/// How deep types may nest.
const DEEPEST: usize = 16;

/// A line for each catalog: what it is, its size, the refusal's number and the time of the check.
pub fn lines(library: &Library) -> Vec<String> {
    let files = [
        ("1,024 names on one chain", one_chain()),
        ("16 types deep, 256 ways down from each", many_ways()),
        ("members of types that are none of the 128", unlisted()),
    ];
    let mut lines: Vec<String> = files.iter().map(|(what, catalog)| line(library, what, &catalog.write())).collect();
    lines.push(struct_line(library, &many_ways().write()));
    lines
}

fn line(library: &Library, what: &str, file: &[u8]) -> String {
    // The pointer and the length are those of a live vector.
    let (returned, time) = timed(|| unsafe { (library.catalog)(file.as_ptr(), file.len()) });
    format!("{what}: {} bytes, refusal {}, {time} µs", file.len(), returned >> 56)
}

/// The size of the outermost struct, which every type below it has to let be read whole.
fn struct_line(library: &Library, file: &[u8]) -> String {
    let name = b"A";
    let call = || unsafe { (library.struct_size)(file.as_ptr(), file.len(), name.as_ptr(), name.len()) };
    let (returned, time) = timed(call);
    format!("its outermost struct's size: {returned}, {time} µs")
}

fn timed(call: impl Fn() -> u64) -> (u64, u128) {
    let mut shortest = u128::MAX;
    let mut returned = 0;
    for _ in 0..TIMES {
        let start = Instant::now();
        returned = call();
        shortest = shortest.min(start.elapsed().as_micros());
    }
    (returned, shortest)
}

/// As many tags as there may be, all names equal but for their last bytes and on one chain.
pub fn one_chain() -> Catalog {
    let length = (LIMIT - 5) / MOST_TAGS - 6;
    let digits = b"0123456789abcdefghijklmnopqrstuvwxyz";
    let mut tags = Vec::new();
    for n in 0..digits.len().pow(4) {
        let end: String = (0..4).map(|i| digits[n / digits.len().pow(i) % digits.len()] as char).collect();
        let name = format!("{}{end}", "a".repeat(length - 4));
        if chain(&name) == 0 && tags.len() < MOST_TAGS {
            tags.push(Node { name, ..Node::default() });
        }
    }
    Catalog { tags, types: Vec::new() }
}

fn chain(name: &str) -> usize {
    name.bytes().fold(0, |h, b| (h * 31 + usize::from(b.to_ascii_lowercase())) % CHAINS)
}

/// A row of types, each with as many members of the next as a type may have.
pub fn many_ways() -> Catalog {
    let member = |of: usize, n: usize| node(format!("{n:02x}"), format!("{:x}", of + 1));
    let members = |of: usize| match of + 1 {
        DEEPEST => Vec::new(),
        _ => (0..MOST_MEMBERS).map(|n| member(of, n)).collect(),
    };
    let types = (0..DEEPEST).map(|n| Type { name: format!("{n:x}"), size: 8, members: members(n), ..Type::default() });
    Catalog { tags: vec![node("A".to_owned(), "0".to_owned())], types: types.collect() }
}

/// Types with long names that differ at their ends only, and members of types with such names that are not listed.
pub fn unlisted() -> Catalog {
    let named = |n: usize| format!("{}{n:03}", "t".repeat(61));
    let mut left = LIMIT - 5 - MOST_TYPES * 70;
    let mut types = Vec::new();
    for n in 0..MOST_TYPES {
        let count = MOST_MEMBERS.min(left / 72);
        left -= count * 72;
        let members = (0..count).map(|m| node(format!("{m:02x}"), named(500 + m))).collect();
        types.push(Type { name: named(n), members, ..Type::default() });
    }
    Catalog { tags: Vec::new(), types }
}

fn node(name: String, type_name: String) -> Node {
    Node { name, type_name, kind: STRUCT, ..Node::default() }
}
