//! Catalogs at their limits, each with a list of tags that need what is at the limit.

use super::{Pair, by_hand};
use crate::catalog::{Catalog, MOST_MEMBERS, MOST_TAGS, MOST_TYPES, Node, STRUCT, Type};
use crate::damaged;
use crate::hand::plans::list;
use crate::hand::shapes::{atomic, structure, type_of};
use crate::list::{self, List};

/// What the files by hand are called, at a limit and over it.
const BY_HAND: &[(&str, &str)] = &[
    ("65,536 bytes", "65,537 bytes, and version 2"),
    ("the sample as it is", "version 0"),
    ("the sample as it is", "version 2"),
    ("1,024 tags", "1,025 tags"),
    ("128 types", "129 types"),
    ("256 members", "257 members"),
    ("three dimensions of 1,000,000", "four dimensions that are there"),
    ("three dimensions of 1,000,000", "a third dimension of 1,000,001"),
    ("a first dimension of 1,000,000", "a first dimension of 1,000,001"),
    ("a second dimension of 1,000,000", "a second dimension of 1,000,001"),
    ("all texts of 128 bytes", "a tag's name of 129 bytes"),
    ("all texts of 128 bytes", "a tag's type name of 129 bytes"),
    ("all texts of 128 bytes", "a type's name of 129 bytes"),
    ("all texts of 128 bytes", "a member's name of 129 bytes"),
    ("all texts of 128 bytes", "a member's type name of 129 bytes"),
    ("a tag's name of the bytes 32 and 126", "a tag's name with the byte 31 first"),
    ("a tag's name of the bytes 32 and 126", "a tag's name with the byte 127 last"),
    ("a tag of kind 2", "a tag of kind 3"),
    ("the sample as it is", "an id flag 2"),
    ("the sample as it is", "a size flag 2"),
    ("AOI 2", "AOI 3"),
    ("the sample as it is", "a spare byte behind the sample"),
    ("16 types deep", "17 types deep"),
    ("16 types deep, the innermost first", "17 types deep, the innermost first"),
    ("16 types deep, 60 ways down from each", "17 types deep, 60 ways down from each"),
];

pub fn all() -> Vec<(Pair, List)> {
    let by_hand = by_hand(&damaged::catalogs::all(), BY_HAND);
    let mut all: Vec<_> = by_hand.into_iter().map(with_list).collect();
    all.extend([tags(), types(), members(), nested()]);
    all.extend(dimensions());
    all.extend(texts());
    all
}

/// The pair with a list of the names that its first and last tags lead to.
fn with_list(pair: Pair) -> (Pair, List) {
    let catalog = Catalog::read(&pair.at).expect("a catalog at its limit is accepted");
    let count = catalog.tags.len();
    let mut names = Vec::new();
    for (_, tag) in catalog.tags.iter().enumerate().filter(|(n, _)| *n < 8 || n + 24 >= count) {
        walk(&catalog, tag.name.clone(), tag, &mut names);
    }
    let mut list = List { tags: names, ..list(&[]) };
    while list.write().len() > list::LIMIT {
        list.tags.pop();
    }
    (pair, list)
}

/// A node's name, its last element, and the names under its type's first and last member.
fn walk(catalog: &Catalog, name: String, node: &Node, names: &mut Vec<String>) {
    if name.len() > 128 || names.len() >= 250 {
        return;
    }
    names.push(name.clone());
    let indexes: Vec<String> = node.dims.iter().map(|dim| dim.saturating_sub(1).to_string()).collect();
    let element = if indexes.is_empty() { name } else { format!("{name}[{}]", indexes.join(",")) };
    if !indexes.is_empty() && element.len() <= 128 {
        names.push(element.clone());
    }
    let held = catalog.type_named(&node.type_name).filter(|_| node.kind == STRUCT);
    let members = held.map_or(&[][..], |t| &t.members);
    for member in members.iter().take(1).chain(members.last()) {
        walk(catalog, format!("{element}.{}", member.name), member, names);
    }
}

fn listed(names: impl IntoIterator<Item = String>) -> List {
    List { tags: names.into_iter().collect(), ..list(&[]) }
}

/// Elements of the last 256 tags.
fn tags() -> (Pair, List) {
    let file = |count: usize| {
        let tags = (0..count).map(|n| atomic(&format!("t{n:04}"), "DINT", &[10])).collect();
        Catalog { tags, types: vec![] }.write()
    };
    let names = (MOST_TAGS - 256..MOST_TAGS).map(|n| format!("T{n:04}[9]"));
    (Pair::new("1,024 tags, 256 of them listed", file(MOST_TAGS), file(MOST_TAGS + 1), 5, 1), listed(names))
}

/// Both members of a struct of each type.
fn types() -> (Pair, List) {
    let pair = || vec![atomic("a", "DINT", &[]), atomic("b", "REAL", &[])];
    let file = |count: usize| {
        let tags = (0..count).map(|n| structure(&format!("t{n:03}"), &format!("T{n:03}"), 8, &[])).collect();
        Catalog { tags, types: (0..count).map(|n| type_of(&format!("T{n:03}"), 8, pair())).collect() }.write()
    };
    let names = (0..MOST_TYPES).flat_map(|n| [format!("t{n:03}.a"), format!("t{n:03}.b")]);
    (Pair::new("128 types, a struct of each listed", file(MOST_TYPES), file(MOST_TYPES + 1), 5, 3), listed(names))
}

/// One tag of 10 bytes, `A` with its size, so that the types start at 15: a name of 2 bytes, a size of 2, the AOI byte
/// and the member count.
fn members() -> (Pair, List) {
    let file = |count: usize| {
        let members = (0..count).map(|n| atomic(&format!("m{n:03}"), "INT", &[])).collect();
        Catalog { tags: vec![structure("A", "T", 512, &[])], types: vec![type_of("T", 512, members)] }.write()
    };
    let names = (0..MOST_MEMBERS).map(|n| format!("A.m{n:03}"));
    let list = List { whole_max: 512, ..listed(names) };
    (Pair::new("256 members, all listed", file(MOST_MEMBERS), file(MOST_MEMBERS + 1), 5, 20), list)
}

/// A chain of types with a number beside the next struct in each. The tag has 12 bytes, so the first type starts at 17.
fn nested() -> (Pair, List) {
    let file = |count: usize| {
        let link = |n: usize| {
            let mut members = vec![atomic("n", "DINT", &[])];
            if n + 1 < count {
                members.push(structure("m", &format!("{:03}", n + 1), 100, &[]));
            }
            Type { aoi: 1, ..type_of(&format!("{n:03}"), 100, members) }
        };
        Catalog { tags: vec![structure("A", "000", 100, &[])], types: (0..count).map(link).collect() }.write()
    };
    let names = (0..16).map(|n| format!("A{}.n", ".m".repeat(n)));
    (Pair::new("16 types deep, the innermost listed", file(16), file(17), 7, 17), listed(names))
}

/// A tag `A` of type DINT: its dimension count stands at 13 and the dimensions from 14 on.
fn dimensions() -> Vec<(Pair, List)> {
    const MOST: u32 = 1_000_000;
    let file = |dims: &[u32]| Catalog { tags: vec![atomic("A", "DINT", dims)], types: vec![] }.write();
    let row = || listed(["A[999999]", "A[999998]", "A[1000000]", "A[0]"].map(str::to_owned));
    let cube = || listed(["A[999999,999999,999999]", "A[999999]", "A[0,0,1000000]"].map(str::to_owned));
    let three = || file(&[MOST; 3]);
    vec![
        (Pair::new("a dimension of 1,000,000", file(&[MOST]), file(&[MOST + 1]), 5, 14), row()),
        (Pair::new("a first dimension of 1,000,000", three(), file(&[MOST + 1, 1, 1]), 5, 14), cube()),
        (Pair::new("a second dimension of 1,000,000", three(), file(&[1, MOST + 1, 1]), 5, 18), cube()),
        (Pair::new("a third dimension of 1,000,000", three(), file(&[MOST, MOST, MOST + 1]), 5, 22), cube()),
        (Pair::new("three dimensions", file(&[9; 3]), file(&[9; 4]), 5, 13), cube()),
    ]
}

/// Names of 128 bytes that are listed, or under which something is.
fn texts() -> Vec<(Pair, List)> {
    let x = |count: usize| "x".repeat(count);
    let tag = |count: usize| Catalog { tags: vec![atomic(&x(count), "DINT", &[])], types: vec![] }.write();
    let typed = |count: usize| {
        let name = "y".repeat(count);
        let members = vec![atomic(&"m".repeat(126), "DINT", &[]), atomic("b", "DINT", &[])];
        Catalog { tags: vec![structure("A", &name, 8, &[])], types: vec![type_of(&name, 8, members)] }.write()
    };
    vec![
        (Pair::new("a tag's name of 128 bytes", tag(128), tag(129), 5, 5), listed([x(128), x(128).to_uppercase()])),
        (
            Pair::new("a type's name of 128 bytes", typed(128), typed(129), 5, 7),
            listed([format!("A.{}", "m".repeat(126)), "A.b".to_owned()]),
        ),
    ]
}
