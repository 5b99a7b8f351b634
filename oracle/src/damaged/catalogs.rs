//! Damaged catalogs: refusals 1 to 7.

use super::{Case, Over, accepted, cut, followed, overwritten, refused};
use crate::catalog::{ATOMIC, Catalog, MOST_MEMBERS, MOST_TAGS, MOST_TYPES, Node, STRING, STRUCT, TEXT, Type};

pub fn all() -> Vec<Case> {
    let mut cases = overwritten(SAMPLE, OVER);
    cases.extend(cut(SAMPLE, STARTS));
    followed(cases, &[ends, texts, counts, alike_tags, alike_types, circles, chains])
}

/// A catalog of one tag and one type of one member, 56 bytes. Each line is a field and has its place in front.
#[rustfmt::skip]
const SAMPLE: &[u8] = &[
    /*  0 */ 1,
    /*  1 */ 0, 1,
    /*  3 */ 0, 1,
    /*  5 */ 2, b'A', b'b',                // the tag's name
    /*  8 */ 1, b'T',                      // its type name
    /* 10 */ 1,                            // its kind
    /* 11 */ 2,                            // its dimension count
    /* 12 */ 0, 0, 0, 3,
    /* 16 */ 0, 0, 0, 4,
    /* 20 */ 1,                            // whether it has an instance id
    /* 21 */ 0, 0, 0, 5,
    /* 25 */ 1,                            // whether it has a structure size
    /* 26 */ 0, 12,
    /* 28 */ 1, b'T',                      // the type's name
    /* 30 */ 0, 12,                        // its size
    /* 32 */ 0,                            // its AOI byte
    /* 33 */ 0, 1,                         // its member count
    /* 35 */ 1, b'm',                      // the member's name
    /* 37 */ 4, b'D', b'I', b'N', b'T',    // its type name
    /* 42 */ 0,                            // its kind
    /* 43 */ 1,                            // its dimension count
    /* 44 */ 0, 0, 0, 7,
    /* 48 */ 1,                            // whether it has an instance id
    /* 49 */ 0, 0, 0, 9,
    /* 53 */ 1,                            // whether it has a structure size
    /* 54 */ 0, 4,
];

/// Where the fields of the sample start, but for the version.
const STARTS: &[usize] =
    &[1, 3, 5, 8, 10, 11, 12, 16, 20, 21, 25, 26, 28, 30, 32, 33, 35, 37, 42, 43, 44, 48, 49, 53, 54];

#[rustfmt::skip]
const OVER: &[Over] = &[
    ("the sample as it is", 0, &[1], 0, 0),
    ("version 0", 0, &[0], 2, 0),
    ("version 2", 0, &[2], 2, 0),
    ("version 255", 0, &[255], 2, 0),
    ("version 2, and all counts too large", 0, &[2, 255, 255, 255, 255], 2, 0),
    ("1,025 tags said", 1, &[4, 1], 5, 1),
    ("65,535 tags said", 1, &[255, 255], 5, 1),
    ("1,025 tags and 129 types said", 1, &[4, 1, 0, 129], 5, 1),
    ("129 types said", 3, &[0, 129], 5, 3),
    ("32,769 types said", 3, &[128, 1], 5, 3),
    ("no type said: the type is spare", 3, &[0, 0], 3, 28),
    ("two types said: no second one", 3, &[0, 2], 3, 56),
    ("a tag's name of the bytes 32 and 126", 6, &[32, 126], 0, 0),
    ("a tag's name with the byte 31 first", 6, &[31], 4, 6),
    ("a tag's name with the byte 127 last", 7, &[127], 4, 7),
    ("a tag's name with the byte 255", 7, &[255], 4, 7),
    ("a tag's name of two bytes 0", 6, &[0, 0], 4, 6),
    ("a tag's name one byte longer than the rest", 5, &[51], 3, 5),
    ("a tag's name just as long as the rest, with the byte 1", 5, &[50], 4, 8),
    ("a tag's name of 255 bytes that are not there", 5, &[255], 3, 5),
    ("a tag's type name with the byte 31", 9, &[31], 4, 9),
    ("a tag's type name with the byte 128", 9, &[128], 4, 9),
    ("a tag's type name longer than the rest", 8, &[48], 3, 8),
    ("a tag of kind 0", 10, &[0], 0, 0),
    ("a tag of kind 2", 10, &[2], 0, 0),
    ("a tag of kind 3", 10, &[3], 4, 10),
    ("a tag of kind 255", 10, &[255], 4, 10),
    ("a tag of kind 3 and of 4 dimensions", 10, &[3, 4], 4, 10),
    ("a tag of 4 dimensions", 11, &[4], 5, 11),
    ("a tag of 255 dimensions", 11, &[255], 5, 11),
    ("a first dimension of 0", 12, &[0, 0, 0, 0], 0, 0),
    ("a first dimension of 1,000,000", 12, &[0, 15, 66, 64], 0, 0),
    ("a first dimension of 1,000,001", 12, &[0, 15, 66, 65], 5, 12),
    ("a second dimension of 1,000,000", 16, &[0, 15, 66, 64], 0, 0),
    ("a second dimension of 1,000,001", 16, &[0, 15, 66, 65], 5, 16),
    ("a second dimension of 4,294,967,295", 16, &[255, 255, 255, 255], 5, 16),
    ("both dimensions of 1,000,001", 12, &[0, 15, 66, 65, 0, 15, 66, 65], 5, 12),
    ("a first dimension of 1,000,001 and an id flag 2", 12, &[0, 15, 66, 65, 0, 0, 0, 4, 2], 5, 12),
    ("an id flag 2", 20, &[2], 4, 20),
    ("an id flag 255", 20, &[255], 4, 20),
    ("an instance id of 4,294,967,295", 21, &[255, 255, 255, 255], 0, 0),
    ("a size flag 2", 25, &[2], 4, 25),
    ("a tag's structure size of 65,535", 26, &[255, 255], 0, 0),
    ("a type's name with the byte 31", 29, &[31], 4, 29),
    ("a type's name longer than the rest", 28, &[28], 3, 28),
    ("a type's size of 0", 30, &[0, 0], 0, 0),
    ("a type's size of 65,535", 30, &[255, 255], 0, 0),
    ("AOI 1", 32, &[1], 0, 0),
    ("AOI 2", 32, &[2], 0, 0),
    ("AOI 3", 32, &[3], 4, 32),
    ("AOI 3 and 257 members said", 32, &[3, 1, 1], 4, 32),
    ("257 members said", 33, &[1, 1], 5, 33),
    ("65,535 members said", 33, &[255, 255], 5, 33),
    ("no member said: the member is spare", 33, &[0, 0], 3, 35),
    ("two members said: no second one", 33, &[0, 2], 3, 56),
    ("a member's name with the byte 127", 36, &[127], 4, 36),
    ("a member's name one byte longer than the rest", 35, &[21], 3, 35),
    ("a member's type name with the byte 10 last", 41, &[10], 4, 41),
    ("a member's type name longer than the rest", 37, &[19], 3, 37),
    ("a member of kind 3", 42, &[3], 4, 42),
    ("a member of 4 dimensions", 43, &[4], 5, 43),
    ("a member of a dimension of 1,000,001", 44, &[0, 15, 66, 65], 5, 44),
    ("a member's id flag 2", 48, &[2], 4, 48),
    ("a member's size flag 9", 53, &[9], 4, 53),
    ("a member's structure size of 65,535", 54, &[255, 255], 0, 0),
];

/// Files that end too early or too late, or are too long.
fn ends() -> Vec<Case> {
    let smallest = Catalog::default().write();
    vec![
        accepted("no tag and no type", smallest.clone()),
        refused("no bytes", vec![], 2, 0),
        refused("version 2 alone", vec![2], 2, 0),
        refused("a spare byte behind nothing", [&smallest[..], &[0]].concat(), 3, 5),
        refused("a second catalog behind the first", [&smallest[..], &smallest[..]].concat(), 3, 5),
        refused("a spare byte behind the sample", [SAMPLE, &[0]].concat(), 3, 56),
        refused("three spare bytes behind the sample", [SAMPLE, &[1, 2, 3]].concat(), 3, 56),
        refused("1,025 tags said, and no more", vec![1, 4, 1], 5, 1),
        refused("4 dimensions said, and no more", [&SAMPLE[..11], &[4]].concat(), 5, 11),
        refused("a byte 31 in front of the cut", [&SAMPLE[..6], &[31, 65, 1]].concat(), 4, 6),
        accepted("65,536 bytes", long(22)),
        refused("65,537 bytes, and version 2", [&[2], &long(23)[1..]].concat(), 1, 65_536),
    ]
}

/// 250 tags of 262 bytes, and one of 9 bytes and so many: with 22 the file has 65,536 bytes.
fn long(last: usize) -> Vec<u8> {
    let mut tags: Vec<Node> = (0..250).map(|n| node(&format!("{n:03}{}", "x".repeat(125)), &"y".repeat(128))).collect();
    tags.push(node("250", &"y".repeat(last)));
    Catalog { tags, types: vec![] }.write()
}

/// Texts at the limit and over it; the place of a text is its length byte.
fn texts() -> Vec<Case> {
    let longest = "x".repeat(TEXT);
    let longer = "x".repeat(TEXT + 1);
    let member_of = |name: &str, type_name: &str| types(vec![type_of("T", vec![node(name, type_name)])]);
    vec![
        accepted("all texts empty", sample_of("", "", "")),
        accepted("all texts of 128 bytes", sample_of(&longest, &longest, &longest)),
        accepted("a tag's name with an index over 1,000,000: no listed tag", tags(&["A[1000001]"])),
        refused("a tag's name of 129 bytes", tags(&[&longer]), 5, 5),
        refused("a tag's name of 255 bytes", tags(&[&"x".repeat(255)]), 5, 5),
        refused("a tag's name of 200 bytes, ten of them there", tags(&[&"x".repeat(200)])[..16].to_vec(), 3, 5),
        refused("a tag's name of 129 bytes, the last 127", tags(&[&format!("{longest}\x7f")]), 4, 134),
        refused("a tag's name of 200 bytes, the last 31", tags(&[&format!("{}\x1f", "x".repeat(199))]), 4, 205),
        refused(
            "a tag's type name of 129 bytes",
            Catalog { tags: vec![node("A", &longer)], types: vec![] }.write(),
            5,
            7,
        ),
        refused("a type's name of 129 bytes", types(vec![type_of(&longer, vec![])]), 5, 5),
        refused("a member's name of 129 bytes", member_of(&longer, "DINT"), 5, 12),
        refused("a member's type name of 129 bytes", member_of("m", &longer), 5, 14),
    ]
}

/// Counts at their limits and one over.
fn counts() -> Vec<Case> {
    let numbered = |count: usize| (0..count).map(|n| node(&format!("{n:03x}"), "")).collect::<Vec<_>>();
    let tags = |count: usize| Catalog { tags: numbered(count), types: vec![] };
    let listed = |count: usize| types((0..count).map(|n| type_of(&format!("{n:03}"), vec![])).collect());
    let members = |count: usize| types(vec![type_of("T", numbered(count))]);
    let mut alike_last = tags(MOST_TAGS);
    alike_last.tags[MOST_TAGS - 1].name = "00A".to_owned();
    let cube =
        |dims: &[u32]| Catalog { tags: vec![Node { dims: dims.to_vec(), ..node("A", "") }], types: vec![] }.write();
    vec![
        accepted("1,024 tags", tags(MOST_TAGS).write()),
        refused("1,025 tags", tags(MOST_TAGS + 1).write(), 5, 1),
        refused("1,024 tags of 9 bytes, the last alike to an early one", alike_last.write(), 6, 9212),
        accepted("128 types", listed(MOST_TYPES)),
        refused("129 types", listed(MOST_TYPES + 1), 5, 3),
        accepted("256 members", members(MOST_MEMBERS)),
        refused("257 members", members(MOST_MEMBERS + 1), 5, 10),
        accepted("three dimensions of 1,000,000", cube(&[1_000_000; 3])),
        refused("a third dimension of 1,000,001", cube(&[1, 1, 1_000_001]), 5, 18),
        refused("four dimensions that are there", cube(&[1; 4]), 5, 9),
    ]
}

/// Tags of one letter have 7 bytes: they stand at 5, 12, 19, 26.
fn alike_tags() -> Vec<Case> {
    let circle = Catalog { tags: vec![node("A", ""), node("a", "")], types: vec![holder("C", "C")] };
    vec![
        refused("two tags of one name", tags(&["A", "A"]), 6, 12),
        refused("two tags alike but for their case", tags(&["Ab", "aB"]), 6, 13),
        refused("Z and z", tags(&["Z", "z"]), 6, 12),
        refused("two tags of a program alike", tags(&["Program:Main.X", "PROGRAM:MAIN.x"]), 6, 25),
        refused("two tags without a name", tags(&["", ""]), 6, 11),
        refused("three tags alike: told at the second", tags(&["A", "a", "A"]), 6, 12),
        refused("A B b a: b is alike to an earlier one first", tags(&["A", "B", "b", "a"]), 6, 19),
        accepted("bytes 32 apart that are no letters: [ and {", tags(&["[", "{"])),
        accepted("bytes 32 apart that are no letters: @ and `", tags(&["@", "`"])),
        accepted("a name that begins as another", tags(&["Ab", "Abc"])),
        refused("tags alike, then a spare byte", [&tags(&["A", "a"])[..], &[0]].concat(), 3, 19),
        refused("tags alike, then a tag with the byte 31", tags(&["A", "a", "\x1f"]), 4, 20),
        refused("tags alike, then a circle", circle.write(), 6, 12),
    ]
}

/// Types of one letter have 7 bytes without members, their members stand behind these.
fn alike_types() -> Vec<Case> {
    let empty = |name: &str| type_of(name, vec![]);
    let pair = |name: &str| type_of(name, vec![node("m", ""), node("M", "")]);
    let both = Catalog { tags: vec![node("A", ""), node("a", "")], types: vec![pair("T")] };
    let later = type_of("B", vec![node("m", ""), node("n", ""), node("N", "")]);
    vec![
        refused("two types of one name", types(vec![empty("T"), empty("T")]), 6, 12),
        refused("the third type named as the first", types(vec![empty("A"), empty("B"), empty("A")]), 6, 19),
        accepted("types alike but for their case", types(vec![empty("T"), empty("t")])),
        refused("two members alike but for their case", types(vec![pair("T")]), 6, 19),
        refused("members alike in the second type", types(vec![empty("A"), later]), 6, 33),
        accepted("one member name in two types", types(vec![holder("A", "DINT"), holder("B", "DINT")])),
        accepted("one name for tag, type and member", sample_of("T", "T", "T")),
        refused("members alike, then a type again", types(vec![pair("T"), empty("T")]), 6, 19),
        refused("a type again, members alike within it", types(vec![empty("T"), pair("T")]), 6, 12),
        refused("tags alike and members alike", both.write(), 6, 12),
        refused("a circle, then a type twice", types(vec![holder("C", "C"), empty("T"), empty("T")]), 6, 27),
    ]
}

/// Types that hold one another. A type of one letter with one member of one letter has 15 bytes.
fn circles() -> Vec<Case> {
    let empty = |name: &str| type_of(name, vec![]);
    let held = |kind: u8| type_of("N", vec![Node { kind, ..node("m", "C") }]);
    let array = type_of("C", vec![Node { kind: STRUCT, dims: vec![3], ..node("m", "C") }]);
    let second = type_of("C", vec![node("x", "DINT"), Node { kind: STRUCT, ..node("y", "C") }]);
    let three = || vec![holder("A", "B"), holder("B", "C"), holder("C", "A")];
    let behind = |first: Type| types([vec![first], three()].concat());
    vec![
        refused("a circle of one type", types(vec![holder("C", "C")]), 7, 5),
        refused("a circle of two types", types(vec![holder("A", "B"), holder("B", "A")]), 7, 5),
        refused("a circle of three types", types(three()), 7, 5),
        refused("a circle of three types behind another", behind(empty("N")), 7, 12),
        refused("a type that leads into a circle", types(vec![holder("D", "C"), holder("C", "C")]), 7, 5),
        refused("an atomic member named as a circle, then it", types(vec![held(ATOMIC), holder("C", "C")]), 7, 20),
        refused("a string member named as a circle, then it", types(vec![held(STRING), holder("C", "C")]), 7, 20),
        refused("a circle through an array", types(vec![array]), 7, 5),
        refused("a circle through a second member", types(vec![second]), 7, 5),
        refused("a circle, then a spare byte", [&types(vec![holder("C", "C")])[..], &[0]].concat(), 3, 20),
        accepted("a string member of its own type", types(vec![Type { name: "C".to_owned(), ..held(STRING) }])),
        accepted("an atomic member of its own type", types(vec![Type { name: "C".to_owned(), ..held(ATOMIC) }])),
        accepted("a circle but for the case of a letter", types(vec![holder("C", "c")])),
        accepted("a struct member of an unlisted type", types(vec![holder("A", "B")])),
    ]
}

/// Types in a row, each holding the next one: 19 bytes each, the innermost 9. With the innermost first, the seventeenth
/// in the file is the first to start a chain of 17: it stands at 5 + 9 + 15 * 19 = 299.
fn chains() -> Vec<Case> {
    let mut broken = chain(17);
    broken[8].members[0].kind = STRING;
    let mut unlisted = chain(16);
    unlisted[15] = holder("015", "none");
    vec![
        accepted("16 types deep", types(chain(16))),
        accepted("16 types deep, the innermost first", types(reversed(16))),
        accepted("16 types deep, an unlisted one below", types(unlisted)),
        accepted("17 types deep but for a string member", types(broken)),
        refused("17 types deep", types(chain(17)), 7, 5),
        refused("17 types deep, the innermost first", types(reversed(17)), 7, 299),
        refused("18 types deep, the innermost first", types(reversed(18)), 7, 299),
        refused("128 types deep", types(chain(128)), 7, 5),
        refused("128 types deep, the innermost first", types(reversed(128)), 7, 299),
        accepted("16 types deep, 60 ways down from each", types(wide(16))),
        refused("17 types deep, 60 ways down from each", types(wide(17)), 7, 5),
    ]
}

fn chain(count: usize) -> Vec<Type> {
    let mut row: Vec<Type> = (1..count).map(|n| holder(&format!("{:03}", n - 1), &format!("{n:03}"))).collect();
    row.push(type_of(&format!("{:03}", count - 1), vec![]));
    row
}

fn reversed(count: usize) -> Vec<Type> {
    chain(count).into_iter().rev().collect()
}

/// The same row with 60 members in each type that has one.
fn wide(count: usize) -> Vec<Type> {
    let copies = |m: &Node| (0..60).map(|n| Node { name: format!("{n:02}"), ..m.clone() }).collect::<Vec<_>>();
    chain(count).into_iter().map(|t| Type { members: t.members.iter().flat_map(copies).collect(), ..t }).collect()
}

/// An atomic node without dimensions, instance id or size: 6 bytes and its texts.
fn node(name: &str, type_name: &str) -> Node {
    Node { name: name.to_owned(), type_name: type_name.to_owned(), ..Node::default() }
}

/// A type: 6 bytes, its name and its members.
fn type_of(name: &str, members: Vec<Node>) -> Type {
    Type { name: name.to_owned(), members, ..Type::default() }
}

/// A type with one struct member, named m.
fn holder(name: &str, held: &str) -> Type {
    type_of(name, vec![Node { kind: STRUCT, ..node("m", held) }])
}

fn tags(names: &[&str]) -> Vec<u8> {
    Catalog { tags: names.iter().map(|name| node(name, "")).collect(), types: vec![] }.write()
}

fn types(types: Vec<Type>) -> Vec<u8> {
    Catalog { tags: vec![], types }.write()
}

/// One tag, and one type with one atomic member.
fn sample_of(tag: &str, type_name: &str, member: &str) -> Vec<u8> {
    let types = vec![type_of(type_name, vec![node(member, type_name)])];
    Catalog { tags: vec![node(tag, type_name)], types }.write()
}
