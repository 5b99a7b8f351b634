//! Catalogs and lists inside the limits, each made up to make one part of planning slow.

use oracle::catalog::{Catalog, MOST_MEMBERS, MOST_TAGS, MOST_TYPES, Node};
use oracle::hand::shapes::{atomic, structure, texts, type_of};
use oracle::list::List;

use crate::far;

/// The most tags of a list.
const TAGS: usize = 256;
/// The longest names that many tags of a list may have each, its other names being none.
const LENGTH: usize = 62;
/// How deep types may nest.
const DEEPEST: usize = 16;
/// How many structs of that depth a list has room for, if it has a tag in each of their levels and two in the last.
const CHAINS: usize = TAGS / (DEEPEST + 1);

/// What is slow, with its catalog and list.
pub fn lists() -> Vec<(&'static str, Catalog, List)> {
    vec![
        ("126 tags of 128 bytes, 40 structs above each pair", pair_catalog(), pairs("A", 126, 128)),
        ("256 tags of 62 bytes, 18 structs above each pair", pair_catalog(), pairs("A", TAGS, LENGTH)),
        (
            "126 tags of 128 bytes, 23 structs above each pair, the last of 1,024 tags of 54 bytes",
            long_catalog(),
            pairs(&long_name(MOST_TAGS - 1), 126, 128),
        ),
        ("structs at the end of 1,024 tags alike but for the last bytes", alike_catalog(), alike(false)),
        ("the same in other letters", alike_catalog(), alike(true)),
        ("structs 16 deep, the last of 256 members at each level", deep_catalog(1), deep(false)),
        ("the same in other letters", deep_catalog(1), deep(true)),
        ("structs 16 deep, 256 ways down from each", deep_catalog(MOST_MEMBERS), deep(true)),
        ("15 structs 16 deep, a tag at each level", chain_catalog(), chains()),
        ("256 elements of one array, backwards, 128 runs", array_catalog(), elements(|n| 500 * (n / 2) + n % 2)),
        ("256 elements of one array, backwards, one run", array_catalog(), elements(|n| 3 * n)),
        ("256 elements of one array, backwards, no run", array_catalog(), elements(|n| 500 * n)),
        ("256 no-group names that are nearly keys", alike_catalog(), barred()),
        ("64 together names that are nearly read names", alike_catalog(), together("x")),
        ("64 together names, each a struct with two tags", alike_catalog(), together("")),
        ("256 times one tag", alike_catalog(), listed(vec![format!("{}.a", alike_name(MOST_TAGS - 1)); TAGS])),
        ("256 structs, none with a second tag", alike_catalog(), listed((0..TAGS).map(alone).collect())),
        ("128 pairs behind 15 members and 9 brackets, types at the end", far::pair_catalog(), listed(far::pairs())),
        ("256 tags 30 members deep, types at the end", far::deep_catalog(), listed(far::deep(TAGS, 15))),
    ]
}

/// A list of these tags, with a budget and a maximum that bar no merge by themselves.
fn listed(tags: Vec<String>) -> List {
    List { whole_max: 500, budget: 4000, tags, ..List::default() }
}

fn two_members() -> Vec<Node> {
    vec![atomic("a", "DINT", &[]), atomic("b", "DINT", &[])]
}

fn pair_catalog() -> Catalog {
    Catalog { tags: vec![structure("A", "T", 12, &[])], types: vec![type_of("T", 12, two_members())] }
}

/// Tags in pairs that differ in their last index only. The struct has no dimensions, so that each bracket names it again;
/// the name that all have in common is barred, so that the pairs merge one by one.
fn pairs(base: &str, count: usize, length: usize) -> List {
    let tag = |n: usize| {
        let head = format!("{base}[{:0width$}]", n / 2, width = 3 + (length - base.len() - 5) % 3);
        let brackets = (length - head.len()) / 3 - 1;
        format!("{head}{}[{}]", "[1]".repeat(brackets), n % 2)
    };
    List { no_group: texts(&[&base.to_ascii_lowercase()]), ..listed((0..count).map(tag).collect()) }
}

/// As many tags as a catalog may have, their names as long as it has room for, all structs.
fn long_catalog() -> Catalog {
    let tags = (0..MOST_TAGS).map(|n| structure(&long_name(n), "T", 12, &[])).collect();
    Catalog { tags, types: vec![type_of("T", 12, two_members())] }
}

/// 54 bytes, alike but for the last four.
fn long_name(n: usize) -> String {
    format!("{}{n:04}", "x".repeat(50))
}

/// As many tags as a catalog may have, all structs.
fn alike_catalog() -> Catalog {
    let tags = (0..MOST_TAGS).map(|n| structure(&alike_name(n), "T", 12, &[])).collect();
    Catalog { tags, types: vec![type_of("T", 12, two_members())] }
}

/// 28 bytes, so that a list has room for as many other names.
fn alike_name(n: usize) -> String {
    format!("{}{n:04}", "Conveyor_Section_Drive_N")
}

/// Both members of the last 128 tags.
fn alike(other_letters: bool) -> List {
    let tag = |n: usize| {
        let name = alike_name(MOST_TAGS - TAGS / 2 + n / 2);
        let name = if other_letters { name.to_ascii_uppercase() } else { name };
        format!("{name}.{}", ["a", "b"][n % 2])
    };
    listed((0..TAGS).map(tag).collect())
}

/// A member of each of the last 256 tags.
fn alone(n: usize) -> String {
    format!("{}.a", alike_name(MOST_TAGS - TAGS + n))
}

/// A row of types. The last so many of 256 members of each are of the next; the members of the last type are numbers.
/// The tag and the types that are used stand behind as many others as there may be.
fn deep_catalog(ways: usize) -> Catalog {
    let member = |of: usize, n: usize| match of + 1 < DEEPEST && n + ways >= MOST_MEMBERS {
        true => structure(&letters(n), &letters(of + 1), 12, &[]),
        false => atomic(&letters(n), "INT", &[]),
    };
    let members = |of: usize| (0..MOST_MEMBERS).map(|n| member(of, n)).collect();
    let unused = (DEEPEST..MOST_TYPES).map(|n| type_of(&letters(n), 12, Vec::new()));
    let types = unused.chain((0..DEEPEST).map(|n| type_of(&letters(n), 12, members(n)))).collect();
    let mut tags: Vec<Node> = (1..MOST_TAGS).map(|n| atomic(&format!("A{n:x}"), "", &[])).collect();
    tags.push(structure("A", &letters(0), 12, &[128]));
    Catalog { tags, types }
}

/// The last two numbers of the innermost struct, for each of 128 elements.
fn deep(other_letters: bool) -> List {
    let last = |n: usize| letters(MOST_MEMBERS - 1 - n);
    let inner = format!(".{}", last(0)).repeat(DEEPEST - 1);
    let tag = |n: usize| format!("A[{}]{inner}.{}", n / 2, last(n % 2));
    let tag = |n: usize| if other_letters { tag(n).to_ascii_uppercase() } else { tag(n) };
    listed((0..TAGS).map(tag).collect())
}

/// A number and a struct in each struct; the further out, the more bytes it has beside them, so that merging goes from
/// the inside out.
fn chain_catalog() -> Catalog {
    let size = |of: usize| (of..DEEPEST).map(|level| 12 + DEEPEST - level).sum::<usize>() as u16;
    let members = |of: usize| match of + 1 < DEEPEST {
        true => vec![atomic("x", "DINT", &[]), structure("s", &letters(of + 1), size(of + 1), &[])],
        false => two_members(),
    };
    let types = (0..DEEPEST).map(|n| type_of(&letters(n), size(n), members(n))).collect();
    Catalog { tags: vec![structure("A", &letters(0), size(0), &[CHAINS as u32])], types }
}

/// All numbers of each element.
fn chains() -> List {
    let inner = |level: usize| ".s".repeat(level);
    let numbers = |n: usize| {
        let outer = (0..DEEPEST - 1).map(move |level| format!("A[{n}]{}.x", inner(level)));
        outer.chain(["a", "b"].map(|last| format!("A[{n}]{}.{last}", inner(DEEPEST - 1))))
    };
    listed((0..CHAINS).flat_map(numbers).collect())
}

/// Two letters for a number below 676.
fn letters(n: usize) -> String {
    [n / 26, n % 26].map(|n| char::from(b'a' + n as u8)).iter().collect()
}

fn array_catalog() -> Catalog {
    Catalog { tags: vec![atomic("Trend", "DINT", &[1_000_000])], types: Vec::new() }
}

/// Elements at these places, the last first.
fn elements(place: fn(usize) -> usize) -> List {
    listed((0..TAGS).rev().map(|n| format!("Trend[{}]", place(n))).collect())
}

/// The structs of the list with a byte behind, in small letters.
fn barred() -> List {
    let name = |n: usize| format!("{}x", alike_name(MOST_TAGS - TAGS + n).to_ascii_lowercase());
    List { no_group: (0..TAGS).map(name).collect(), ..alike(false) }
}

fn together(behind: &str) -> List {
    let name = |n: usize| format!("{}{behind}", alike_name(MOST_TAGS - 64 + n).to_ascii_uppercase());
    List { together: (0..64).map(name).collect(), ..alike(false) }
}

#[cfg(test)]
mod tests {
    use oracle::catalog::Catalog;
    use oracle::list::List;

    #[test]
    fn all_are_inside_the_limits() {
        for (what, catalog, list) in super::lists() {
            assert!(Catalog::read(&catalog.write()) == Ok(catalog), "{what}");
            assert!(List::read(&list.write()).as_ref() == Ok(&list), "{what}");
            assert!(list.tags.len() >= 126, "{what}");
        }
    }

    #[test]
    fn the_pairs_are_as_long_as_said() {
        let long = super::long_name(0);
        for (base, count, length, structs) in
            [("A", 126, 128, 40), ("A", super::TAGS, super::LENGTH, 18), (long.as_str(), 126, 128, 23)]
        {
            let tags = super::pairs(base, count, length).tags;
            let brackets = |tag: &String| tag.matches('[').count();
            assert!(tags.iter().all(|tag| tag.len() == length && brackets(tag) == structs + 1), "{}", tags[0]);
        }
    }
}
