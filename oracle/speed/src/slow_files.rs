//! Files inside the limits that make the other calls slow: catalogs to be checked, plans to be packed, values to be cut
//! and results to be sorted.

use oracle::catalog::{Catalog, MOST_TAGS, Node};
use oracle::hand::shapes::atomic;
use oracle::plan::{PlannedRead, Step};
use oracle::random::Random;
use oracle::results::Outcome;
use oracle::value::Plain;
use oracle::worst::{many_ways, one_chain, unlisted};

use crate::far;

/// The most members that one read of a plan serves.
const CUTS: usize = 256;

pub fn catalogs() -> Vec<(&'static str, Catalog)> {
    vec![
        ("1,024 names on one chain", one_chain()),
        ("16 types deep, 256 ways down from each", many_ways()),
        ("members of types that are none of the 128", unlisted()),
        ("9,000 members of 128 types", far::deep_catalog()),
    ]
}

/// Catalogs with the reads of a plan.
pub fn plans() -> Vec<(&'static str, Catalog, Vec<PlannedRead>)> {
    let tags: Vec<Node> = one_chain().tags;
    let name = tags[MOST_TAGS - 1].name.to_ascii_uppercase();
    let structs = (0..256).map(|n| far::pairs()[n].replace("[1]", "")).collect();
    vec![
        ("256 reads 67 members deep, types at the end", far::deep_catalog(), reads(far::deep(256, 52))),
        ("256 reads 16 members deep, types at the end", far::pair_catalog(), reads(structs)),
        ("256 reads of the last of 1,024 tags on one chain", one_chain(), reads(vec![name; 256])),
        ("256 reads without tokens, 1,024 tags", many_tags(), reads(vec!["x".repeat(136); 256])),
    ]
}

fn many_tags() -> Catalog {
    Catalog { tags: (0..MOST_TAGS).map(|n| atomic(&format!("{n:050}"), "DINT", &[])).collect(), types: Vec::new() }
}

fn reads(names: Vec<String>) -> Vec<PlannedRead> {
    names.into_iter().map(|name| PlannedRead { name, members: Vec::new() }).collect()
}

/// Values with a path.
pub fn values() -> Vec<(&'static str, Plain, Vec<Step>)> {
    vec![
        ("one struct of 8,190 names", wide(8190, 2), last(2)),
        ("one struct of 500 names of 124 bytes", wide(500, 124), last(124)),
        ("520 structs of 17 members each", many_structs(), vec![Step::Index(519), Step::Member("q".to_owned())]),
        ("one array of 13,000 items", items(), vec![Step::Index(12_999)]),
    ]
}

/// A struct of so many names of so many bytes, which differ in the last two and stand in no order. The last one is the
/// only one of its letters.
fn wide(count: usize, length: usize) -> Plain {
    let byte = |n: usize| char::from(33 + n as u8);
    let mut ends: Vec<String> = (0..94 * 94).map(|n| format!("{}{}", byte(n / 94), byte(n % 94))).collect();
    let mut random = Random::new(1);
    for n in (1..ends.len()).rev() {
        ends.swap(n, random.below(n + 1));
    }
    let others = ends.into_iter().filter(|end| !end.eq_ignore_ascii_case("zz")).take(count - 1);
    let name = |end: String| (format!("{}{end}", "a".repeat(length - 2)), empty());
    Plain::Struct(others.chain(["zz".to_owned()]).map(name).collect())
}

/// The path to the last member, in other letters: no name is the same, so all are looked at twice.
fn last(length: usize) -> Vec<Step> {
    vec![Step::Member(format!("{}ZZ", "a".repeat(length - 2)))]
}

/// Just as many members each as need the larger table of the check for repeated names.
fn many_structs() -> Plain {
    let members = || (0..17).map(|n| (char::from(b'a' + n).to_string(), empty())).collect();
    Plain::Array((0..520).map(|_| Plain::Struct(members())).collect())
}

fn items() -> Plain {
    Plain::Array(vec![empty(); 13_000])
}

fn empty() -> Plain {
    Plain::Leaf(Vec::new())
}

/// Plans with their results.
pub fn results() -> Vec<(&'static str, Vec<PlannedRead>, Vec<Outcome>)> {
    let one = |value: Plain, path: Vec<Step>| {
        let members = (0..CUTS).map(|n| (format!("{n}"), Some(path.clone()))).collect();
        (vec![PlannedRead { name: "A".to_owned(), members }], vec![Outcome::Value(value)])
    };
    let rows = values().into_iter().map(|(what, value, path)| {
        let (reads, outcomes) = one(value, path);
        (what, reads, outcomes)
    });
    rows.chain([("256 reads that fail by a cut, 16 members each", failing(), vec![Outcome::Neither; 256])]).collect()
}

/// Long names that differ at their ends, each with as many cuts as there is room for.
fn failing() -> Vec<PlannedRead> {
    let members = |n: usize| (0..16).map(|m| (format!("{:04x}", 16 * n + m), Some(Vec::new()))).collect();
    (0..256).map(|n| PlannedRead { name: format!("{:0136}", n), members: members(n) }).collect()
}

#[cfg(test)]
mod tests {
    use oracle::catalog::Catalog;
    use oracle::{plan, results, value};

    #[test]
    fn all_are_inside_the_limits() {
        for (what, catalog) in super::catalogs() {
            assert!(Catalog::read(&catalog.write()).is_ok(), "{what}");
        }
        for (what, catalog, reads) in super::plans() {
            assert!(Catalog::read(&catalog.write()).is_ok() && plan::read(&plan::write(&reads)).is_ok(), "{what}");
        }
        for (what, reads, outcomes) in super::results() {
            let read = results::read(&results::write(&outcomes));
            assert!(read.is_ok() && plan::read(&plan::write(&reads)).is_ok(), "{what}");
        }
    }

    #[test]
    fn the_paths_lead_somewhere() {
        for (what, value, path) in super::values() {
            let cut = value::dig(&value::write(&value), &plan::write_path(&path));
            assert!(cut.is_ok_and(|place| place != [0; 8]), "{what}");
        }
    }
}
