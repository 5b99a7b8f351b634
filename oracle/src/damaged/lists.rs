//! Damaged lists: refusals 1 to 5 and 8.

use super::{Case, Over, accepted, cut, followed, overwritten, refused};
use crate::list::List;

pub fn all() -> Vec<Case> {
    let mut cases = overwritten(SAMPLE, OVER);
    cases.extend(cut(SAMPLE, STARTS));
    followed(cases, &[ends, counts, tag_texts, name_texts, indexes, long_indexes, no_indexes, in_order])
}

/// A list of one no-group name, one together name and two tags, 28 bytes. Each line is a field and has its place in
/// front.
#[rustfmt::skip]
const SAMPLE: &[u8] = &[
    /*  0 */ 1,
    /*  1 */ 0, 0, 1, 244,                 // the whole maximum
    /*  5 */ 15, 160,                      // the budget
    /*  7 */ 0, 1,                         // the no-group count
    /*  9 */ 2, b'n', b'g',
    /* 12 */ 0, 1,                         // the together count
    /* 14 */ 2, b'T', b'o',
    /* 17 */ 0, 2,                         // the tag count
    /* 19 */ 4, b'A', b'[', b'7', b']',
    /* 24 */ 3, b'B', b'{', b'2',
];

/// Where the fields of the sample start, but for the version.
const STARTS: &[usize] = &[1, 5, 7, 9, 12, 14, 17, 19, 24];

#[rustfmt::skip]
const OVER: &[Over] = &[
    ("the sample as it is", 0, &[1], 0, 0),
    ("version 0", 0, &[0], 2, 0),
    ("version 2", 0, &[2], 2, 0),
    ("version 255", 0, &[255], 2, 0),
    ("version 2, and the first count too large", 0, &[2, 0, 0, 0, 0, 0, 0, 255, 255], 2, 0),
    ("a whole maximum of 0", 1, &[0, 0, 0, 0], 0, 0),
    ("a whole maximum of 4,294,967,295", 1, &[255, 255, 255, 255], 0, 0),
    ("a budget of 0", 5, &[0, 0], 0, 0),
    ("a budget of 65,535", 5, &[255, 255], 0, 0),
    ("257 no-group names said", 7, &[1, 1], 5, 7),
    ("65,535 no-group names said", 7, &[255, 255], 5, 7),
    ("no no-group name said: its first bytes are 622 together names", 7, &[0, 0], 5, 9),
    ("two no-group names said: the second is empty, then 258 together names", 7, &[0, 2], 5, 13),
    ("256 no-group names said: the third has the byte 2", 7, &[1, 0], 4, 14),
    ("a no-group name of the bytes 32 and 126", 10, &[32, 126], 0, 0),
    ("a no-group name with the byte 31 first", 10, &[31], 4, 10),
    ("a no-group name with the byte 127 last", 11, &[127], 4, 11),
    ("a no-group name with the byte 0", 11, &[0], 4, 11),
    ("a no-group name one byte longer than the rest", 9, &[19], 3, 9),
    ("a no-group name just as long as the rest, with the byte 0", 9, &[18], 4, 12),
    ("a no-group name of 255 bytes that are not there", 9, &[255], 3, 9),
    ("65 together names said", 12, &[0, 65], 5, 12),
    ("256 together names said", 12, &[1, 0], 5, 12),
    ("65,535 together names said", 12, &[255, 255], 5, 12),
    ("no together name said: its first bytes are 596 tags", 12, &[0, 0], 5, 14),
    ("64 together names said: the third has the byte 4", 12, &[0, 64], 4, 19),
    ("a together name of the bytes 32 and 126", 15, &[32, 126], 0, 0),
    ("a together name with the byte 31 first", 15, &[31], 4, 15),
    ("a together name with the byte 127 last", 16, &[127], 4, 16),
    ("a together name with the byte 255", 16, &[255], 4, 16),
    ("a together name one byte longer than the rest", 14, &[14], 3, 14),
    ("a together name just as long as the rest, with the byte 0", 14, &[13], 4, 17),
    ("257 tags said", 17, &[1, 1], 5, 17),
    ("65,535 tags said", 17, &[255, 255], 5, 17),
    ("no tag said: the tags are spare", 17, &[0, 0], 3, 19),
    ("one tag said: the second is spare", 17, &[0, 1], 3, 24),
    ("three tags said: no third one", 17, &[0, 3], 3, 28),
    ("256 tags said: no third one", 17, &[1, 0], 3, 28),
    ("a tag of the bytes 32 and 126", 20, &[32, 126], 0, 0),
    ("a tag with the byte 31 first", 20, &[31], 4, 20),
    ("a tag with the byte 127 last", 23, &[127], 4, 23),
    ("a tag with the byte 10 in place of a digit", 22, &[10], 4, 22),
    ("a tag one byte longer than the rest", 19, &[9], 3, 19),
    ("a tag just as long as the rest, with the byte 3", 19, &[8], 4, 24),
    ("a last tag one byte longer than the rest", 24, &[4], 3, 24),
    ("a last tag of 255 bytes that are not there", 24, &[255], 3, 24),
    ("a last tag one byte shorter than the rest", 24, &[2], 3, 27),
    ("a last tag that is empty, three spare bytes behind it", 24, &[0], 3, 25),
    ("a last tag with the byte 127 last", 27, &[127], 4, 27),
];

/// Files that end too early or too late, or are too long.
fn ends() -> Vec<Case> {
    let smallest = List::default().write();
    let longer = long(117);
    vec![
        accepted("nothing listed", smallest.clone()),
        refused("no bytes", vec![], 2, 0),
        refused("version 2 alone", vec![2], 2, 0),
        refused("a spare byte behind nothing", [&smallest[..], &[0]].concat(), 3, 13),
        refused("a second list behind the first", [&smallest[..], &smallest[..]].concat(), 3, 13),
        refused("a spare byte behind the sample", [SAMPLE, &[0]].concat(), 3, 28),
        refused("three spare bytes behind the sample", [SAMPLE, &[1, 2, 3]].concat(), 3, 28),
        refused("257 no-group names said, and no more", vec![1, 0, 0, 0, 0, 0, 0, 1, 1], 5, 7),
        refused("65 together names said, and no more", [&SAMPLE[..12], &[0, 65]].concat(), 5, 12),
        refused("257 tags said, and no more", [&SAMPLE[..17], &[1, 1]].concat(), 5, 17),
        refused("a byte 31 in front of the cut", [&SAMPLE[..20], &[31, 65, 65, 65, 9]].concat(), 4, 20),
        accepted("16,384 bytes", long(116)),
        refused("16,385 bytes", longer.clone(), 1, 16_384),
        refused("16,385 bytes, and version 2", [&[2], &longer[1..]].concat(), 1, 16_384),
        refused("16,384 bytes, and version 2", [&[2], &long(116)[1..]].concat(), 2, 0),
        refused("20,000 bytes 0", vec![0; 20_000], 1, 16_384),
    ]
}

/// 126 tags of 129 bytes, and one of a byte and so many: with 116 the file has 16,384 bytes.
fn long(last: usize) -> Vec<u8> {
    let mut texts = vec!["x".repeat(128); 126];
    texts.push("y".repeat(last));
    List { tags: texts, ..List::default() }.write()
}

/// Counts at their limits and one over. Without names the no-group count stands at 7, the together count at 9 and the
/// tag count at 11.
fn counts() -> Vec<Case> {
    let many = |count: usize| (0..count).map(|n| n.to_string()).collect::<Vec<_>>();
    let no_group = |count| List { no_group: many(count), ..List::default() }.write();
    let together = |count| List { together: many(count), ..List::default() }.write();
    let tags = |count| List { tags: many(count), ..List::default() }.write();
    let all = List { no_group: many(256), together: many(64), tags: many(256), ..List::default() };
    let empty = List { no_group: texts(&[""; 3]), together: texts(&[""; 3]), tags: texts(&[""; 3]), ..List::default() };
    vec![
        accepted("256 no-group names", no_group(256)),
        refused("257 no-group names", no_group(257), 5, 7),
        accepted("64 together names", together(64)),
        refused("65 together names", together(65), 5, 9),
        accepted("256 tags", tags(256)),
        refused("257 tags", tags(257), 5, 11),
        accepted("256 no-group names, 64 together names, 256 tags", all.write()),
        accepted("all names and tags empty", empty.write()),
    ]
}

/// A lone tag's length byte stands at 13.
fn tag_texts() -> Vec<Case> {
    let longest = "x".repeat(128);
    let inside = format!("{}[1000001{}", "x".repeat(60), "x".repeat(61));
    vec![
        accepted("a tag of 128 bytes", tags(&[&longest])),
        accepted("a tag of no bytes", tags(&[""])),
        refused("a tag of 129 bytes", tags(&[&format!("{longest}x")]), 5, 13),
        refused("a tag of 255 bytes", tags(&[&"x".repeat(255)]), 5, 13),
        refused("a tag of 200 bytes, ten of them there", tags(&[&"x".repeat(200)])[..24].to_vec(), 3, 13),
        refused("a tag of 129 bytes, the last 127", tags(&[&format!("{longest}\x7f")]), 4, 142),
        refused("a tag of 200 bytes, the last 31", tags(&[&format!("{}\x1f", "x".repeat(199))]), 4, 213),
        refused("a tag of 129 bytes that holds [1000001", tags(&[&inside]), 5, 13),
        refused("a tag of 128 bytes that holds it", tags(&[&inside[..128]]), 8, 75),
        refused("a second tag of 129 bytes", tags(&["A", &format!("{longest}x")]), 5, 15),
    ]
}

/// A lone no-group name's length byte stands at 9, a lone together name's at 11.
fn name_texts() -> Vec<Case> {
    let no_group = |name: &str| List { no_group: texts(&[name]), ..List::default() }.write();
    let together = |name: &str| List { together: texts(&[name]), ..List::default() }.write();
    let x = |count: usize| "x".repeat(count);
    vec![
        accepted("a no-group name of 128 bytes", no_group(&x(128))),
        accepted("a no-group name of 129 bytes", no_group(&x(129))),
        accepted("a no-group name of 136 bytes", no_group(&x(136))),
        refused("a no-group name of 137 bytes", no_group(&x(137)), 5, 9),
        refused("a no-group name of 255 bytes", no_group(&x(255)), 5, 9),
        refused("a no-group name of 200 bytes, ten of them there", no_group(&x(200))[..20].to_vec(), 3, 9),
        refused("a no-group name of 137 bytes, the last 31", no_group(&format!("{}\x1f", x(136))), 4, 146),
        accepted("a together name of 128 bytes", together(&x(128))),
        refused("a together name of 129 bytes", together(&x(129)), 5, 11),
        refused("a together name of 136 bytes", together(&x(136)), 5, 11),
        refused("a together name of 200 bytes, ten of them there", together(&x(200))[..22].to_vec(), 3, 11),
        refused("a together name of 129 bytes, the first 127", together(&format!("\x7f{}", x(128))), 4, 12),
    ]
}

/// Digits straight after `[`, `,` or `{` in a lone tag, whose bytes stand from 14 on.
fn indexes() -> Vec<Case> {
    let rows: &[(&str, u8, u64)] = &[
        ("A[1000000]", 0, 0),
        ("A[1000001]", 8, 16),
        ("A{1000000}", 0, 0),
        ("A{1000001}", 8, 16),
        ("A[1,1000000]", 0, 0),
        ("A[1,1000001]", 8, 18),
        (",1000001", 8, 15),
        ("[1000001", 8, 15),
        ("A[0001000000]", 0, 0),
        ("A[0001000001]", 8, 16),
        ("A{000000000000000000001}", 0, 0),
        ("A[1000000", 0, 0),
        ("A[1000001", 8, 16),
        ("A{1000001", 8, 16),
        ("A[1000001x", 8, 16),
        ("A[1000001.b", 8, 16),
        ("A[5][1000001]", 8, 19),
        ("A[1000001][1000002]", 8, 16),
        ("A[1000000,1000001]", 8, 24),
        ("A[1000000]{1000001}", 8, 25),
        ("A[,1000001]", 8, 17),
        ("[[1000001", 8, 16),
        ("A[9999999]", 8, 16),
        ("A[10000000]", 8, 16),
        ("A.b c[2000000", 8, 20),
        ("Program:[1000001].A", 8, 23),
    ];
    rows.iter().map(|(tag, number, place)| refused(&format!("the tag {tag}"), tags(&[tag]), *number, *place)).collect()
}

/// Numbers that would come out small if they were counted in 32 or 64 bits, and as many digits as fit.
fn long_indexes() -> Vec<Case> {
    let digits = |digit: &str| format!("[{}", digit.repeat(127));
    vec![
        refused("an index of 2^32", tags(&["A[4294967296]"]), 8, 16),
        refused("an index of 2^64", tags(&["A[18446744073709551616]"]), 8, 16),
        refused("an index of 2^64 + 5, unclosed", tags(&["A{18446744073709551621"]), 8, 16),
        refused("an index of 2^128", tags(&["A[1,340282366920938463463374607431768211456]"]), 8, 18),
        refused("an index of 127 digits 9", tags(&[&digits("9")]), 8, 15),
        accepted("an index of 127 digits 0", tags(&[&digits("0")])),
        accepted("an index of 120 digits 0 and 1000000", tags(&[&format!("[{}1000000", "0".repeat(120))])),
        refused("an index of 120 digits 0 and 1000001", tags(&[&format!("[{}1000001", "0".repeat(120))]), 8, 15),
        refused("an index of 128 digits in 129 bytes", tags(&[&format!("[{}", "9".repeat(128))]), 5, 13),
        accepted("128 digits and no bracket", tags(&[&"9".repeat(128)])),
    ]
}

/// Digits that stand elsewhere, or in names that are no tags.
fn no_indexes() -> Vec<Case> {
    let free = ["1000001", "A.1000001", "A]1000001", "A(1000001)", "A}1000001", "A[ 1000001]", "A[-1000001]"];
    let more =
        ["A[x1000001]", "A[1000000x1000001]", "A[100000 1]", "A[1000000.1000001]", "A[]1000001", "A[", "A{", ","];
    let large = texts(&["A[1000001]", "A{9999999}", ",1000001", "[4294967296"]);
    let rows = free.iter().chain(&more);
    let mut cases: Vec<_> = rows.map(|tag| accepted(&format!("the tag {tag}"), tags(&[tag]))).collect();
    let no_group = List { no_group: large.clone(), ..List::default() };
    let together = List { together: large.clone(), ..List::default() };
    let both = List { no_group: large.clone(), together: large, tags: texts(&["A[1000001]"]), ..List::default() };
    cases.push(accepted("no-group names with large indexes", no_group.write()));
    cases.push(accepted("together names with large indexes", together.write()));
    cases.push(refused("no-group names, together names and a tag with large indexes", both.write(), 8, 102));
    cases
}

/// Two faults: within a text 3, 4, 5 and 8 in this order, and an earlier field first. The first tag's length byte stands
/// at 13.
fn in_order() -> Vec<Case> {
    let over = "x".repeat(129);
    let cut = |tag: &str, kept: usize| tags(&[tag])[..kept].to_vec();
    let spoilt = [&[255], &tags(&["A", "A[1000001]"])[1..]].concat();
    vec![
        refused("an index too large, then the end within the tag", cut("A[1000001]xx", 24), 3, 13),
        refused("a byte 31, then the end within the tag", cut("A\x1fxxx", 17), 3, 13),
        refused("an index too large, then a byte 31 in the tag", tags(&["A[1000001]\x1f"]), 4, 24),
        refused("a byte 127, then an index too large", tags(&["\x7f[1000001]"]), 4, 14),
        refused("an index too large, then a tag with the byte 31", tags(&["A[1000001]", "\x1f"]), 8, 16),
        refused("an index too large, then a tag of 129 bytes", tags(&["A[1000001]", &over]), 8, 16),
        refused("an index too large, then a spare byte", [&tags(&["A[1000001]"])[..], &[0]].concat(), 8, 16),
        refused("a tag of 129 bytes, then an index too large", tags(&[&over, "A[1000001]"]), 5, 13),
        refused("a tag with the byte 31, then an index too large", tags(&["\x1f", "A[1000001]"]), 4, 14),
        refused("an index too large in the second tag", tags(&["B", "A[1000001]"]), 8, 18),
        refused("indexes too large in two tags", tags(&["A[1000001]", "A[1000001]"]), 8, 16),
        refused("version 255, and an index too large", spoilt, 2, 0),
        refused(
            "65 together names said, and an index too large",
            [&tags(&["A[1000001]"])[..9], &[0, 65], &tags(&["A[1000001]"])[11..]].concat(),
            5,
            9,
        ),
    ]
}

fn texts(texts: &[&str]) -> Vec<String> {
    texts.iter().map(|t| (*t).to_owned()).collect()
}

/// A list of tags alone: the first one's length byte stands at 13.
fn tags(tags: &[&str]) -> Vec<u8> {
    List { tags: texts(tags), ..List::default() }.write()
}
