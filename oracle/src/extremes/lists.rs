//! Lists at their limits, for the catalog of the bench lists.

use super::{Pair, by_hand};
use crate::damaged;
use crate::hand::plans::{FIVE, list};
use crate::hand::shapes::texts;
use crate::list::List;

/// What the files by hand are called, at a limit and over it.
const BY_HAND: &[(&str, &str)] = &[
    ("16,384 bytes", "16,385 bytes"),
    ("the sample as it is", "version 0"),
    ("the sample as it is", "version 2"),
    ("256 no-group names", "257 no-group names"),
    ("64 together names", "65 together names"),
    ("256 tags", "257 tags"),
    ("a no-group name of 136 bytes", "a no-group name of 137 bytes"),
    ("a together name of 128 bytes", "a together name of 129 bytes"),
    ("a tag of 128 bytes", "a tag of 129 bytes"),
    ("a no-group name of the bytes 32 and 126", "a no-group name with the byte 31 first"),
    ("a together name of the bytes 32 and 126", "a together name with the byte 127 last"),
    ("a tag of the bytes 32 and 126", "a tag with the byte 31 first"),
    ("a tag of the bytes 32 and 126", "a tag with the byte 127 last"),
    ("the tag A[1000000]", "the tag A[1000001]"),
    ("the tag A{1000000}", "the tag A{1000001}"),
    ("the tag A[1,1000000]", "the tag A[1,1000001]"),
    ("an index of 120 digits 0 and 1000000", "an index of 120 digits 0 and 1000001"),
    ("the sample as it is", "a spare byte behind the sample"),
];

pub fn all() -> Vec<Pair> {
    let mut pairs = by_hand(&damaged::lists::all(), BY_HAND);
    pairs.extend(in_use());
    for (limit, budget) in [("budget 0", 0), ("budget 65,535", u16::MAX)] {
        pairs.push(Pair::at(limit, List { budget, ..list(FIVE) }.write()));
    }
    for (limit, whole_max) in [("whole maximum 0", 0), ("whole maximum 4,294,967,295", u32::MAX)] {
        pairs.push(Pair::at(limit, List { whole_max, ..list(FIVE) }.write()));
    }
    pairs
}

/// The last name of each row bars or binds the struct, and an element at the limit runs with others. Counts stand at 7,
/// 9 and 11 where no names do; a first tag's bytes stand from 14 on.
fn in_use() -> Vec<Pair> {
    let row = |count: usize, last: &str| -> Vec<String> {
        (1..count).map(|n| format!("x{n}")).chain([last.to_owned()]).collect()
    };
    let no_group = |count| List { no_group: row(count, "motor"), ..list(FIVE) }.write();
    let together = |count| List { together: row(count, "MOTOR"), whole_max: 0, ..list(FIVE) }.write();
    let elements = |count: usize| (0..count).map(|n| format!("Trend[{n}]")).collect();
    let tags = |count| List { tags: elements(count), ..list(&[]) }.write();
    let index = |index: &str| List { tags: texts(&[index, "Trend[999990]"]), ..list(&[]) }.write();
    let long = |zeros: usize| format!("Trend[{}7]", "0".repeat(zeros));
    vec![
        Pair::new("256 no-group names, the last in use", no_group(256), no_group(257), 5, 7),
        Pair::new("64 together names, the last in use", together(64), together(65), 5, 9),
        Pair::new("256 elements of one array", tags(256), tags(257), 5, 11),
        Pair::new("an element 1,000,000 that runs", index("Trend[1000000]"), index("Trend[1000001]"), 8, 20),
        Pair::new("a tag of 128 bytes that runs", index(&long(120)), index(&long(121)), 5, 13),
    ]
}
