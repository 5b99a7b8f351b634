//! Plans at their limits, for the catalog of the bench lists.

use super::{Pair, by_hand};
use crate::damaged;
use crate::plan::{self, PlannedRead, Step};

/// What the files by hand are called, at a limit and over it.
const BY_HAND: &[(&str, &str)] = &[
    ("65,536 bytes", "65,537 bytes, and version 2"),
    ("the sample as it is", "version 0"),
    ("the sample as it is", "version 2"),
    ("256 reads", "257 reads"),
    ("256 members", "257 members"),
    ("64 members as keys", "65 members as keys"),
    ("64 indexes", "65 indexes"),
    ("a read name of 136 bytes", "a read name of 137 bytes"),
    ("a tag of 128 bytes", "a tag of 129 bytes"),
    ("a key text of 128 bytes", "a key text of 129 bytes"),
    ("a read name of the bytes 32 and 126", "a read name with the byte 31 first"),
    ("a tag of the byte 126", "a tag with the byte 127"),
    ("a key text of the bytes 32 and 126", "a key text with the byte 31 first"),
    ("the read A{1000001}", "the read A{1000002}"),
    ("the read A[1000001]", "the read A[1000002]"),
    ("the read A[5,1000001]", "the read A[5,1000002]"),
    ("the sample as it is", "a path byte 2"),
    ("a second key byte 2", "a second key byte 3"),
    ("the sample as it is", "a spare byte behind the sample"),
];

/// With an empty read name of one member `t` its key count stands at 9.
pub fn all() -> Vec<Pair> {
    let mut pairs = by_hand(&damaged::plans::all(), BY_HAND);
    let range = |count: &str| plan::write(&[read(&format!("Trend[1]{{{count}}}"), 1, 0)]);
    let named = |zeros: usize| plan::write(&[read(&format!("Trend[{}7]{{3}}", "0".repeat(zeros)), 1, 0)]);
    let keys = |count: usize| plan::write(&[read("", 1, count)]);
    let members = |count: usize| plan::write(&[read("Motor", count, 1)]);
    pairs.extend([
        Pair::new("256 reads of ranges", in_use(256), in_use(257), 5, 1),
        Pair::new("256 members with paths", members(256), members(257), 5, 9),
        Pair::new("64 keys", keys(64), keys(65), 5, 9),
        Pair::new("a range of 1,000,001 elements", range("1000001"), range("1000002"), 8, 13),
        Pair::new("a range's name of 136 bytes", named(125), named(126), 5, 3),
    ]);
    pairs
}

/// So many reads of the bench's array and struct, each with its members.
pub fn in_use(count: usize) -> Vec<u8> {
    let named = |n: usize| match n % 3 {
        0 => read(&format!("Trend[{n}]{{{}}}", 3 * n), 2, 1),
        1 => read("Motor", 2, 1),
        _ => read(&format!("Trend[{n}]{{1000001}}"), 1, 1),
    };
    plan::write(&(0..count).map(named).collect::<Vec<_>>())
}

/// A read of so many members `t`, each with a path of so many indexes.
fn read(name: &str, members: usize, keys: usize) -> PlannedRead {
    let path = (0..keys).map(|n| Step::Index(n as u32)).collect();
    PlannedRead { name: name.to_owned(), members: vec![("t".to_owned(), Some(path)); members] }
}
