//! Damaged plans: refusals 1 to 5 and 8.

use super::{Case, Over, accepted, cut, followed, overwritten, refused};
use crate::plan::{self, Member, PlannedRead, Step};

pub fn all() -> Vec<Case> {
    let mut cases = overwritten(SAMPLE, OVER);
    cases.extend(cut(SAMPLE, STARTS));
    followed(cases, &[ends, counts, names, texts, indexes, no_indexes, in_order])
}

/// A plan of two reads, the first with a path of each kind of key, 41 bytes. Each line is a field and has its place in
/// front.
#[rustfmt::skip]
const SAMPLE: &[u8] = &[
    /*  0 */ 1,
    /*  1 */ 0, 2,                                        // the read count
    /*  3 */ 7, b'T', b'[', b'3', b']', b'{', b'3', b'}', // the first read's name
    /* 11 */ 0, 2,                                        // its member count
    /* 13 */ 1, b'a',                                     // a tag
    /* 15 */ 1,                                           // whether it has a path
    /* 16 */ 3,                                           // the key count
    /* 17 */ 0,                                           // a member
    /* 18 */ 2, b'S', b'p',
    /* 21 */ 1,                                           // an index
    /* 22 */ 0, 0, 0, 2,
    /* 26 */ 2,                                           // the first of several indexes
    /* 27 */ 0, 0, 1, 0,
    /* 31 */ 1, b'b',                                     // a tag
    /* 33 */ 0,                                           // whether it has a path
    /* 34 */ 1, b'R',                                     // the second read's name
    /* 36 */ 0, 1,                                        // its member count
    /* 38 */ 1, b'R',                                     // a tag
    /* 40 */ 0,                                           // whether it has a path
];

/// Where the fields of the sample start, but for the version.
const STARTS: &[usize] = &[1, 3, 11, 13, 15, 16, 17, 18, 21, 22, 26, 27, 31, 33, 34, 36, 38, 40];

#[rustfmt::skip]
const OVER: &[Over] = &[
    ("the sample as it is", 0, &[1], 0, 0),
    ("version 0", 0, &[0], 2, 0),
    ("version 2", 0, &[2], 2, 0),
    ("version 255", 0, &[255], 2, 0),
    ("version 2, and the read count too large", 0, &[2, 255, 255], 2, 0),
    ("257 reads said", 1, &[1, 1], 5, 1),
    ("65,535 reads said", 1, &[255, 255], 5, 1),
    ("no read said: the reads are spare", 1, &[0, 0], 3, 3),
    ("one read said: the second is spare", 1, &[0, 1], 3, 34),
    ("three reads said: no third one", 1, &[0, 3], 3, 41),
    ("256 reads said: no third one", 1, &[1, 0], 3, 41),
    ("a read name of the bytes 32 and 126", 4, &[32, 126], 0, 0),
    ("a read name with the byte 31 first", 4, &[31], 4, 4),
    ("a read name with the byte 127 last", 10, &[127], 4, 10),
    ("a read name with the byte 0 for a digit", 6, &[0], 4, 6),
    ("a read name one byte longer than the rest", 3, &[38], 3, 3),
    ("a read name just as long as the rest, with the byte 0", 3, &[37], 4, 11),
    ("a read name of 255 bytes that are not there", 3, &[255], 3, 3),
    ("257 members said", 11, &[1, 1], 5, 11),
    ("65,535 members said", 11, &[255, 255], 5, 11),
    ("no member said: the first one's bytes are a read of 259 members", 11, &[0, 0], 5, 15),
    ("one member said: the second one's bytes are a read of one member, with a tag too long", 11, &[0, 1], 3, 35),
    ("three members said: the next read's name has the byte 1", 11, &[0, 3], 4, 38),
    ("a tag of the byte 126", 14, &[126], 0, 0),
    ("a tag with the byte 31", 14, &[31], 4, 14),
    ("a tag with the byte 127", 14, &[127], 4, 14),
    ("a tag one byte longer than the rest", 13, &[28], 3, 13),
    ("a tag just as long as the rest, with the byte 1", 13, &[27], 4, 15),
    ("a path byte 2", 15, &[2], 4, 15),
    ("a path byte 255", 15, &[255], 4, 15),
    ("a path byte 2, and 65 keys said", 15, &[2, 65], 4, 15),
    ("a path byte 0: the keys are a member, with the byte 0 in its tag", 15, &[0], 4, 17),
    ("65 keys said", 16, &[65], 5, 16),
    ("255 keys said", 16, &[255], 5, 16),
    ("65 keys said, and a key byte 3", 16, &[65, 3], 5, 16),
    ("64 keys said: the fifth has the byte 1 in its text", 16, &[64], 4, 38),
    ("no key said: the first one's bytes are a member, with a path byte 2", 16, &[0], 4, 18),
    ("two keys said: the third one's bytes are a member, with the byte 0 in its tag", 16, &[2], 4, 27),
    ("four keys said: the second member has a key byte 82", 16, &[4], 4, 39),
    ("a first key byte 3", 17, &[3], 4, 17),
    ("a first key byte 255", 17, &[255], 4, 17),
    ("a first key byte 1: the third key's text has the byte 2", 17, &[1], 4, 26),
    ("a key text of the bytes 32 and 126", 19, &[32, 126], 0, 0),
    ("a key text with the byte 31 first", 19, &[31], 4, 19),
    ("a key text with the byte 127 last", 20, &[127], 4, 20),
    ("a key text one byte longer than the rest", 18, &[23], 3, 18),
    ("a key text just as long as the rest, with the byte 1", 18, &[22], 4, 21),
    ("a second key byte 2", 21, &[2], 0, 0),
    ("a second key byte 3", 21, &[3], 4, 21),
    ("a second key byte 0: the second member's tag has the byte 2", 21, &[0], 4, 26),
    ("an index of 0", 22, &[0, 0, 0, 0], 0, 0),
    ("an index of 1,000,002", 22, &[0, 15, 66, 66], 0, 0),
    ("an index of 4,294,967,295", 22, &[255, 255, 255, 255], 0, 0),
    ("a third key byte 1", 26, &[1], 0, 0),
    ("a third key byte 3", 26, &[3], 4, 26),
    ("a third key byte 4", 26, &[4], 4, 26),
    ("a first of several indexes of 4,294,967,295", 27, &[255, 255, 255, 255], 0, 0),
    ("a second tag with the byte 31", 32, &[31], 4, 32),
    ("a second path byte 1: a key byte 82", 33, &[1], 4, 35),
    ("a second path byte 2", 33, &[2], 4, 33),
    ("a second read name with the byte 31", 35, &[31], 4, 35),
    ("a second read name one byte longer than the rest", 34, &[7], 3, 34),
    ("a second read name just as long as the rest, with the byte 0", 34, &[6], 4, 36),
    ("257 members of the second read said", 36, &[1, 1], 5, 36),
    ("no member of the second read said: it is spare", 36, &[0, 0], 3, 38),
    ("two members of the second read said: no second one", 36, &[0, 2], 3, 41),
    ("a last tag with the byte 127", 39, &[127], 4, 39),
    ("a last tag one byte longer than the rest", 38, &[3], 3, 38),
    ("a last tag just as long as the rest, with the byte 0", 38, &[2], 4, 40),
    ("a last path byte 1: no key count", 40, &[1], 3, 41),
    ("a last path byte 2", 40, &[2], 4, 40),
];

/// Files that end too early or too late, or are too long.
fn ends() -> Vec<Case> {
    let smallest = plan::write(&[]);
    vec![
        accepted("no reads", smallest.clone()),
        refused("no bytes", vec![], 2, 0),
        refused("version 2 alone", vec![2], 2, 0),
        refused("a spare byte behind nothing", [&smallest[..], &[0]].concat(), 3, 3),
        refused("a second plan behind the first", [&smallest[..], &smallest[..]].concat(), 3, 3),
        refused("a spare byte behind the sample", [SAMPLE, &[0]].concat(), 3, 41),
        refused("three spare bytes behind the sample", [SAMPLE, &[1, 2, 3]].concat(), 3, 41),
        refused("257 reads said, and no more", vec![1, 1, 1], 5, 1),
        refused("257 members said, and no more", [&SAMPLE[..11], &[1, 1]].concat(), 5, 11),
        refused("65 keys said, and no more", [&SAMPLE[..16], &[65]].concat(), 5, 16),
        refused("a key byte 3, and no more", [&SAMPLE[..17], &[3]].concat(), 4, 17),
        accepted("65,536 bytes", long(5)),
        refused("65,537 bytes, and version 2", [&[2], &long(6)[1..]].concat(), 1, 65_536),
    ]
}

/// A read of 256 members of 130 bytes, and one of 248 such and a last one of 2 bytes and so many: with 5 the file has
/// 65,536 bytes.
fn long(last: usize) -> Vec<u8> {
    let tags = |count: usize| vec![("x".repeat(128), None); count];
    let second = [tags(248), vec![("y".repeat(last), None)]].concat();
    plan::write(&[read("", tags(256)), read("", second)])
}

/// Counts at their limits and one over. The first read's member count stands behind its name, and its first member's key
/// count at 8 where the name is empty and the tag too.
fn counts() -> Vec<Case> {
    let reads = |count: usize| plan::write(&vec![read("R", vec![]); count]);
    let members = |count: usize| vec![("t".to_owned(), None); count];
    let keys = |key: Step, count: usize| path("", vec![key; count]);
    let name = |name: &str| Step::Member(name.to_owned());
    let second = [read("R", members(256)), read("S", members(257))];
    vec![
        accepted("256 reads", reads(256)),
        refused("257 reads", reads(257), 5, 1),
        accepted("256 members", plan::write(&[read("R", members(256))])),
        refused("257 members", plan::write(&[read("R", members(257))]), 5, 5),
        accepted("two reads of 200 members", plan::write(&[read("R", members(200)), read("S", members(200))])),
        refused("257 members of the second read", plan::write(&second), 5, 777),
        accepted("no members", plan::write(&[read("R", vec![])])),
        accepted("no keys", keys(name(""), 0)),
        accepted("64 members as keys", keys(name("m"), 64)),
        accepted("64 indexes", keys(Step::Index(1), 64)),
        accepted("64 first indexes", keys(Step::First(1), 64)),
        refused("65 members as keys", keys(name("m"), 65), 5, 8),
        refused("65 indexes", keys(Step::Index(1), 65), 5, 8),
        refused("255 empty members as keys", keys(name(""), 255), 5, 8),
        accepted("all texts empty", keys(name(""), 2)),
    ]
}

/// The first read's name has its length byte at 3 and its bytes from 4 on.
fn names() -> Vec<Case> {
    let named = |name: &str| plan::write(&[read(name, vec![])]);
    let x = |count: usize| "x".repeat(count);
    let inside = format!("{}{{1000002{}", x(60), x(69));
    vec![
        accepted("a read name of 128 bytes", named(&x(128))),
        accepted("a read name of 136 bytes", named(&x(136))),
        refused("a read name of 137 bytes", named(&x(137)), 5, 3),
        refused("a read name of 255 bytes", named(&x(255)), 5, 3),
        refused("a read name of 200 bytes, ten of them there", named(&x(200))[..14].to_vec(), 3, 3),
        refused("a read name of 137 bytes, the last 127", named(&format!("{}\x7f", x(136))), 4, 140),
        refused("a read name of 200 bytes, the last 31", named(&format!("{}\x1f", x(199))), 4, 203),
        refused("a read name of 137 bytes that holds {1000002", named(&inside), 5, 3),
        refused("a read name of 136 bytes that holds it", named(&inside[..136]), 8, 65),
        refused("a second read name of 137 bytes", plan::write(&[read("R", vec![]), read(&x(137), vec![])]), 5, 7),
    ]
}

/// Tags and key texts: the length byte of the first tag of a read without a name stands at 6; with an empty tag, that of
/// the first key stands at 10.
fn texts() -> Vec<Case> {
    let tag = |tag: &str| plan::write(&[read("", vec![(tag.to_owned(), None)])]);
    let key = |text: &str| path("", vec![Step::Member(text.to_owned())]);
    let second = |text: &str| path("", vec![Step::Index(0), Step::Member(text.to_owned())]);
    let x = |count: usize| "x".repeat(count);
    vec![
        accepted("a tag of 128 bytes", tag(&x(128))),
        refused("a tag of 129 bytes", tag(&x(129)), 5, 6),
        refused("a tag of 136 bytes", tag(&x(136)), 5, 6),
        refused("a tag of 129 bytes, the last 127", tag(&format!("{}\x7f", x(128))), 4, 135),
        refused("a tag of 200 bytes, ten of them there", tag(&x(200))[..17].to_vec(), 3, 6),
        accepted("a key text of 128 bytes", key(&x(128))),
        refused("a key text of 129 bytes", key(&x(129)), 5, 10),
        refused("a key text of 255 bytes", key(&x(255)), 5, 10),
        refused("a key text of 129 bytes, the first 31", key(&format!("\x1f{}", x(128))), 4, 11),
        refused("a key text of 200 bytes, ten of them there", key(&x(200))[..21].to_vec(), 3, 10),
        refused("a second key's text of 129 bytes", second(&x(129)), 5, 15),
    ]
}

/// Digits straight after `[`, `,` or `{` in the first read's name, whose bytes stand from 4 on.
fn indexes() -> Vec<Case> {
    let zeros = "0".repeat(128);
    let rows: &[(&str, u8, u64)] = &[
        ("A{1000001}", 0, 0),
        ("A{1000002}", 8, 6),
        ("A[1000001]", 0, 0),
        ("A[1000002]", 8, 6),
        ("A[1000001]{1000001}", 0, 0),
        ("A[1000001]{1000002}", 8, 15),
        ("A[5,1000001]", 0, 0),
        ("A[5,1000002]", 8, 8),
        (",1000002", 8, 5),
        ("A[0001000001]{0001000001}", 0, 0),
        ("A[0001000002]", 8, 6),
        ("A{1000002", 8, 6),
        ("A[1000002", 8, 6),
        ("A[1000001", 0, 0),
        ("A{1000002}x", 8, 6),
        ("A{9999999}", 8, 6),
        ("A[4294967297]", 8, 6),
        ("A{18446744073709551617}", 8, 6),
        (&format!("[{}1000001", &zeros), 0, 0),
        (&format!("[{}1000002", &zeros), 8, 5),
        (&format!("{{{}", "9".repeat(135)), 8, 5),
        (&format!("{{{}", "9".repeat(136)), 5, 3),
    ];
    let file = |name: &str| plan::write(&[read(name, vec![])]);
    rows.iter().map(|(name, number, place)| refused(&format!("the read {name}"), file(name), *number, *place)).collect()
}

/// Digits that stand elsewhere in a read's name, or in a tag or a key.
fn no_indexes() -> Vec<Case> {
    let free = ["1000002", "A.1000002", "A]1000002", "A[ 1000002]", "A[x1000002]", "A{1000001x1000002}", "A{"];
    let file = |name: &str| plan::write(&[read(name, vec![])]);
    let mut cases: Vec<_> = free.iter().map(|name| accepted(&format!("the read {name}"), file(name))).collect();
    for text in ["[9999999]", "A{1000002}", ",1000002", "A[18446744073709551616"] {
        let member = vec![(text.to_owned(), None)];
        cases.push(accepted(&format!("the tag {text}"), plan::write(&[read("", member)])));
        cases.push(accepted(&format!("the key {text}"), path("", vec![Step::Member(text.to_owned())])));
    }
    cases
}

/// Two faults: within a name 3, 4, 5 and 8 in this order, and an earlier field first. The first read's name has its bytes
/// from 4 on.
fn in_order() -> Vec<Case> {
    let one = |name: &str| plan::write(&[read(name, vec![])]);
    let two = |first: &str, second: &str| plan::write(&[read(first, vec![]), read(second, vec![])]);
    let with = |name: &str, tag: &str| plan::write(&[read(name, vec![(tag.to_owned(), None)])]);
    let over = "x".repeat(137);
    let count = |name: &str| [&one(name)[..one(name).len() - 2], &[1, 1]].concat();
    vec![
        refused("a number too large, then the end within the name", one("A[1000002]xx")[..14].to_vec(), 3, 3),
        refused("a number too large, then a byte 31 in the name", one("A{1000002}\x1f"), 4, 14),
        refused("a number too large, then 257 members said", count("A{1000002}"), 8, 6),
        refused("a number too large, then the end", one("A{1000002}")[..14].to_vec(), 8, 6),
        refused("a number too large, then a tag with the byte 31", with("A{1000002}", "\x1f"), 8, 6),
        refused("a tag with the byte 31, then a spare byte", [&with("A", "\x1f")[..], &[0]].concat(), 4, 8),
        refused("a number too large in the second read", two("A", "A{1000002}"), 8, 10),
        refused("numbers too large in two reads", two("A{1000002}", "A{1000002}"), 8, 6),
        refused("a name of 137 bytes, then a number too large", two(&over, "A{1000002}"), 5, 3),
        refused("a number too large, then a name of 137 bytes", two("A{1000002}", &over), 8, 6),
        refused("257 members said, then a number too large", [&count("A")[..], &one("A{1000002}")[3..]].concat(), 5, 5),
        refused("version 0, and a number too large", [&[0], &one("A{1000002}")[1..]].concat(), 2, 0),
    ]
}

fn read(name: &str, members: Vec<Member>) -> PlannedRead {
    PlannedRead { name: name.to_owned(), members }
}

/// A plan of one read without a name, with one member: its tag, and its path.
fn path(tag: &str, keys: Vec<Step>) -> Vec<u8> {
    plan::write(&[read("", vec![(tag.to_owned(), Some(keys))])])
}
