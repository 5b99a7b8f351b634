//! Damaged values: refusals 1 to 6 and 10.

use super::{Case, Over, accepted, followed, overwritten, refused};
use crate::value::LIMIT;

pub fn all() -> Vec<Case> {
    let cases = overwritten(SAMPLE, OVER);
    followed(cases, &[ended, ends, smallest, texts, levels, levels_in_order, names, many_names, in_order, large])
}

/// A struct of a leaf, an array of two items and a text, 47 bytes. Each line is a field and has its place in front.
#[rustfmt::skip]
const SAMPLE: &[u8] = &[
    /*  0 */ 1,
    /*  1 */ 0, 0, 0, 42,    // the length of all that follows
    /*  5 */ 2,              // a struct
    /*  6 */ 0, 3,           // its member count
    /*  8 */ 2, b'S', b'p',  // the first member's name
    /* 11 */ 0, 0, 0, 3,     // the length of its value
    /* 15 */ 0, 7, 8,        // a leaf of two bytes
    /* 18 */ 1, b'A',        // the second member's name
    /* 20 */ 0, 0, 0, 16,    // the length of its value
    /* 24 */ 1,              // an array
    /* 25 */ 0, 2,           // its item count
    /* 27 */ 0, 0, 0, 1,     // the length of the first item
    /* 31 */ 0,              // a leaf without bytes
    /* 32 */ 0, 0, 0, 4,     // the length of the second item
    /* 36 */ 3, 0, 255, b'x', // a text of any three bytes
    /* 40 */ 1, b'S',        // the third member's name
    /* 42 */ 0, 0, 0, 1,     // the length of its value
    /* 46 */ 3,              // a text without bytes
];

#[rustfmt::skip]
const OVER: &[Over] = &[
    ("the sample as it is", 0, &[1], 0, 0),
    ("version 0", 0, &[0], 2, 0),
    ("version 2", 0, &[2], 2, 0),
    ("version 255", 0, &[255], 2, 0),
    ("version 2, and no bytes said", 0, &[2, 0, 0, 0, 0], 2, 0),
    ("no bytes said: no kind byte", 1, &[0, 0, 0, 0], 3, 5),
    ("one byte said: no member count", 1, &[0, 0, 0, 1], 3, 6),
    ("two bytes said: half a member count", 1, &[0, 0, 0, 2], 3, 6),
    ("three bytes said: no first name", 1, &[0, 0, 0, 3], 3, 8),
    ("one byte fewer said: the last member's value runs past the struct", 1, &[0, 0, 0, 41], 3, 42),
    ("one byte more said than there is", 1, &[0, 0, 0, 43], 3, 1),
    ("256 bytes said", 1, &[0, 0, 1, 0], 3, 1),
    ("4,294,967,295 bytes said", 1, &[255, 255, 255, 255], 3, 1),
    ("2^31 bytes said, and a kind byte 4", 1, &[128, 0, 0, 0, 4], 3, 1),
    ("a leaf of all the bytes", 5, &[0], 0, 0),
    ("a text of all the bytes", 5, &[3], 0, 0),
    ("a kind byte 4", 5, &[4], 4, 5),
    ("a kind byte 255", 5, &[255], 4, 5),
    ("a kind byte 4, and no member said", 5, &[4, 0, 0], 4, 5),
    ("an array: the first name is a length too large", 5, &[1], 3, 8),
    ("no member said: the members are spare", 6, &[0, 0], 3, 8),
    ("one member said: the second is spare", 6, &[0, 1], 3, 18),
    ("two members said: the third is spare", 6, &[0, 2], 3, 40),
    ("four members said: no fourth one", 6, &[0, 4], 3, 47),
    ("256 members said: no fourth one", 6, &[1, 0], 3, 47),
    ("65,535 members said: no fourth one", 6, &[255, 255], 3, 47),
    ("an empty name: its bytes are a length too large", 8, &[0], 3, 9),
    ("a name just as long as the rest, with the byte 0", 8, &[38], 4, 11),
    ("a name one byte longer than the rest", 8, &[39], 3, 8),
    ("a name of 129 bytes that are not there", 8, &[129], 3, 8),
    ("a name of 255 bytes that are not there", 8, &[255], 3, 8),
    ("a name of the bytes 32 and 126", 9, &[32, 126], 0, 0),
    ("a name with the byte 31 first", 9, &[31], 4, 9),
    ("a name with the byte 127 last", 10, &[127], 4, 10),
    ("a name with the byte 128", 10, &[128], 4, 10),
    ("a name with the byte 31, then a kind byte 4", 10, &[31, 0, 0, 0, 3, 4], 4, 10),
    ("no bytes of a leaf said: no kind byte", 11, &[0, 0, 0, 0], 3, 15),
    ("a leaf without bytes: the next name has the byte 8", 11, &[0, 0, 0, 1], 4, 17),
    ("a leaf of one byte: the next name has the byte 1", 11, &[0, 0, 0, 2], 4, 18),
    ("a leaf of three bytes: the next name is too long for the rest", 11, &[0, 0, 0, 4], 3, 19),
    ("a leaf up to the end: no second name", 11, &[0, 0, 0, 32], 3, 47),
    ("a leaf that runs past the struct", 11, &[0, 0, 0, 33], 3, 11),
    ("a leaf of 4,294,967,295 bytes", 11, &[255, 255, 255, 255], 3, 11),
    ("a leaf that runs past the struct, with a kind byte 4", 11, &[0, 0, 0, 33, 4], 3, 11),
    ("an array of 1,800 items in the leaf's place: no first item", 15, &[1], 3, 18),
    ("a struct of 1,800 members in the leaf's place: no first name", 15, &[2], 3, 18),
    ("an array without items in the leaf's place", 15, &[1, 0, 0], 0, 0),
    ("a struct without members in the leaf's place", 15, &[2, 0, 0], 0, 0),
    ("a text in the leaf's place", 15, &[3], 0, 0),
    ("a first member's kind byte 4", 15, &[4], 4, 15),
    ("a second name equal to the third", 19, b"S", 6, 40),
    ("a second name equal to the third but for its case", 19, b"s", 0, 0),
    ("a second name of the byte 127", 19, &[127], 4, 19),
    ("no bytes of the array said: no kind byte", 20, &[0, 0, 0, 0], 3, 24),
    ("one byte of the array said: no item count", 20, &[0, 0, 0, 1], 3, 25),
    ("one byte of the array fewer: its last item runs past it", 20, &[0, 0, 0, 15], 3, 32),
    ("one byte of the array more: it is spare", 20, &[0, 0, 0, 17], 3, 40),
    ("an array up to the end: the bytes behind its items are spare", 20, &[0, 0, 0, 23], 3, 40),
    ("an array that runs past the struct", 20, &[0, 0, 0, 24], 3, 20),
    ("a leaf in the array's place", 24, &[0], 0, 0),
    ("a struct in the array's place: its first member runs past it", 24, &[2], 3, 28),
    ("a second member's kind byte 4", 24, &[4], 4, 24),
    ("no item said: the items are spare", 25, &[0, 0], 3, 27),
    ("one item said: the second is spare", 25, &[0, 1], 3, 32),
    ("three items said: no third one", 25, &[0, 3], 3, 40),
    ("65,535 items said: no third one", 25, &[255, 255], 3, 40),
    ("no bytes of the first item said: no kind byte", 27, &[0, 0, 0, 0], 3, 31),
    ("a first item one byte longer: the second runs past the array", 27, &[0, 0, 0, 2], 3, 33),
    ("a first item up to the array's end: no second one", 27, &[0, 0, 0, 9], 3, 40),
    ("a first item that runs past the array, but not past the struct", 27, &[0, 0, 0, 10], 3, 27),
    ("a first item that runs past all", 27, &[0, 1, 0, 0], 3, 27),
    ("an array for the first item: no item count", 31, &[1], 3, 32),
    ("a struct for the first item: no member count", 31, &[2], 3, 32),
    ("a first item's kind byte 4", 31, &[4], 4, 31),
    ("a first item's kind byte 4, then no bytes of the second said", 31, &[4, 0, 0, 0, 0], 4, 31),
    ("no bytes of the second item said: no kind byte", 32, &[0, 0, 0, 0], 3, 36),
    ("a second item one byte shorter: the array has a spare byte", 32, &[0, 0, 0, 3], 3, 39),
    ("a second item that runs past the array", 32, &[0, 0, 0, 5], 3, 32),
    ("an array of 255 items for the second item: no first one", 36, &[1], 3, 39),
    ("a struct for the second item: a name too long for the rest", 36, &[2], 3, 39),
    ("an array without items for the second item: a spare byte in it", 36, &[1, 0, 0], 3, 39),
    ("a struct without members for the second item: a spare byte in it", 36, &[2, 0, 0], 3, 39),
    ("a second item's kind byte 4", 36, &[4], 4, 36),
    ("an empty last name: its byte is a length too large", 40, &[0], 3, 41),
    ("a last name one byte longer than the rest", 40, &[7], 3, 40),
    ("a last name of the byte 31", 41, &[31], 4, 41),
    ("no bytes of the last value said: no kind byte", 42, &[0, 0, 0, 0], 3, 46),
    ("a last value that runs past the struct", 42, &[0, 0, 0, 2], 3, 42),
    ("an array for the last value: no item count", 46, &[1], 3, 47),
    ("a struct for the last value: no member count", 46, &[2], 3, 47),
    ("a last kind byte 4", 46, &[4], 4, 46),
];

/// The sample cut short, with lengths that say so: of the struct alone, or of the array too. The last field that starts at
/// the cut or before is past the end of the value it stands in.
fn ended() -> Vec<Case> {
    let mut cases = Vec::new();
    let starts = [5, 6, 8, 11, 18, 20, 40, 42];
    for end in 5..SAMPLE.len() {
        cases.push(cut(&format!("the struct ends at {end}"), end, &[1], &starts));
    }
    for end in 24..40 {
        cases.push(cut(&format!("the struct and the array end at {end}"), end, &[1, 20], &[24, 25, 27, 32]));
    }
    cases
}

/// The bytes before a place, with the lengths at these places going up to it.
fn cut(what: &str, end: usize, lengths: &[usize], starts: &[usize]) -> Case {
    let mut file = SAMPLE[..end].to_vec();
    for place in lengths {
        file[place + 3] = (end - place - 4) as u8;
    }
    let start = starts.iter().rev().find(|s| **s <= end).expect("a field starts before the cut");
    refused(what, file, 3, *start as u64)
}

/// Files that end too early or too late.
fn ends() -> Vec<Case> {
    vec![
        refused("no bytes", vec![], 2, 0),
        refused("version 1 alone", vec![1], 3, 1),
        refused("version 2 alone", vec![2], 2, 0),
        refused("three bytes of a length", vec![1, 0, 0, 0], 3, 1),
        refused("a length of 1 and no more", vec![1, 0, 0, 0, 1], 3, 1),
        refused("the sample without its last byte", SAMPLE[..46].to_vec(), 3, 1),
        refused("half of the sample", SAMPLE[..23].to_vec(), 3, 1),
        refused("a spare byte behind the sample", [SAMPLE, &[0]].concat(), 3, 47),
        refused("three spare bytes behind the sample", [SAMPLE, &[1, 2, 3]].concat(), 3, 47),
        refused("a second value behind the first", [SAMPLE, &SAMPLE[1..]].concat(), 3, 47),
        refused("a spare byte behind the smallest value", [&file(&leaf())[..], &[0]].concat(), 3, 6),
        refused("a kind byte 4 and a spare byte", [&file(&value(4, &[]))[..], &[0]].concat(), 4, 5),
    ]
}

/// The smallest values of each kind, and with a byte more. A value's length stands at 1, its kind at 5.
fn smallest() -> Vec<Case> {
    vec![
        accepted("a leaf without bytes", file(&leaf())),
        accepted("a text without bytes", file(&value(3, &[]))),
        accepted("a leaf of the byte 0", file(&value(0, &[0]))),
        accepted("a text of the byte 255", file(&value(3, &[255]))),
        accepted("an array without items", file(&array(&[]))),
        accepted("a struct without members", file(&members(&[]))),
        accepted("an array of an array without items", file(&array(&[array(&[])]))),
        accepted("a struct of one member without a name", file(&members(&[("", leaf())]))),
        refused("an array without a count", file(&value(1, &[])), 3, 6),
        refused("an array with half a count", file(&value(1, &[0])), 3, 6),
        refused("an array without items, and a spare byte in it", file(&value(1, &[0, 0, 0])), 3, 8),
        refused("a struct without members, and a spare byte in it", file(&value(2, &[0, 0, 0])), 3, 8),
        refused("an array of one item without one", file(&value(1, &[0, 1])), 3, 8),
        refused("an array of one item of three bytes", file(&value(1, &[0, 1, 0, 0, 0])), 3, 8),
        refused("a struct of one member without one", file(&value(2, &[0, 1])), 3, 8),
        refused("a struct of one member that is a name", file(&value(2, &[0, 1, 1, b'a'])), 3, 10),
        refused("a kind byte 4 alone", file(&value(4, &[])), 4, 5),
    ]
}

/// Names of members. The first one's length stands at 8, its bytes from 9 on.
fn texts() -> Vec<Case> {
    let named = |name: &str| file(&members(&[(name, leaf())]));
    let second = |name: &str| file(&members(&[("a", leaf()), (name, leaf())]));
    let x = |count: usize| "x".repeat(count);
    let inside = |name: &str| file(&array(&[members(&[(name, leaf())])]));
    let ten = [&[0, 1, 200][..], x(10).as_bytes()].concat();
    vec![
        accepted("a name of 127 bytes", named(&x(127))),
        accepted("a name of 128 bytes", named(&x(128))),
        refused("a name of 129 bytes", named(&x(129)), 5, 8),
        refused("a name of 136 bytes", named(&x(136)), 5, 8),
        refused("a name of 255 bytes", named(&x(255)), 5, 8),
        refused("a name of 129 bytes, the last 127", named(&format!("{}\x7f", x(128))), 4, 137),
        refused("a name of 129 bytes, the first 31", named(&format!("\x1f{}", x(128))), 4, 9),
        refused("a name of 200 bytes, ten of them there", file(&value(2, &ten)), 3, 8),
        refused("a second name of 129 bytes", second(&x(129)), 5, 15),
        refused("a name of 129 bytes in an array's struct", inside(&x(129)), 5, 15),
        accepted("a name with a dot, a bracket and a large number", named("a.b[1000002]{9}")),
    ]
}

/// Arrays in one another: each takes 7 bytes, so the value of level 41 stands at 281. Structs with names of one byte: each
/// takes 9, so it stands at 361.
fn levels() -> Vec<Case> {
    let deepest = arrays(39, leaf());
    let side = |items: &[Vec<u8>]| file(&array(items));
    vec![
        accepted("39 levels of arrays", file(&arrays(38, array(&[])))),
        accepted("40 levels of arrays", file(&arrays(39, array(&[])))),
        refused("41 levels of arrays", file(&arrays(40, array(&[]))), 10, 281),
        refused("60 levels of arrays", file(&arrays(59, array(&[]))), 10, 281),
        refused("300 levels of arrays", file(&arrays(299, array(&[]))), 10, 281),
        accepted("39 levels of arrays and a leaf", file(&deepest)),
        refused("40 levels of arrays and a leaf", file(&arrays(40, leaf())), 10, 281),
        refused("40 levels of arrays and a text", file(&arrays(40, value(3, b"x"))), 10, 281),
        accepted("39 levels of structs and a leaf", file(&structs(39, leaf()))),
        accepted("40 levels of structs", file(&structs(39, members(&[])))),
        refused("40 levels of structs and a leaf", file(&structs(40, leaf())), 10, 361),
        refused("41 levels of structs", file(&structs(40, members(&[]))), 10, 361),
        accepted("20 structs, 19 arrays and a leaf", file(&structs(20, arrays(19, leaf())))),
        refused("20 structs, 20 arrays and a leaf", file(&structs(20, arrays(20, leaf()))), 10, 321),
        refused("20 arrays, 20 structs and a leaf", file(&arrays(20, structs(20, leaf()))), 10, 321),
        accepted("two items of 39 levels", side(&[arrays(38, leaf()), arrays(38, leaf())])),
        refused("the second of two items over 40 levels", side(&[arrays(38, leaf()), deepest.clone()]), 10, 552),
        refused("two items over 40 levels", side(&[deepest.clone(), deepest.clone()]), 10, 281),
        refused(
            "the last item of level 40 over 40 levels",
            file(&arrays(38, array(&[leaf(), array(&[leaf()])]))),
            10,
            286,
        ),
    ]
}

/// At a value of level 41 its own length is looked at first, then its level, then what it holds.
fn levels_in_order() -> Vec<Case> {
    let past = vec![0, 0, 0, 2, 0];
    let deep = arrays(39, leaf());
    let spare = value(1, &[&[0, 1][..], &leaf(), &[0]].concat());
    vec![
        refused("a value of level 41 that runs past", file(&arrays(40, past)), 3, 281),
        refused("a value of level 41 with three bytes of a length", file(&arrays(40, vec![0, 0, 0])), 3, 281),
        refused("a value of level 41 without a kind byte", file(&arrays(40, vec![0; 4])), 10, 281),
        refused("a value of level 41 with a kind byte 4", file(&arrays(40, value(4, &[]))), 10, 281),
        refused("a value of level 41, then a spare byte", file(&arrays(39, spare)), 10, 281),
        refused("a value of level 40 with a kind byte 4", file(&arrays(39, value(4, &[]))), 4, 278),
        refused("a value of level 40 without a kind byte", file(&arrays(39, vec![0; 4])), 3, 278),
        refused("a kind byte 4, then over 40 levels", file(&array(&[value(4, &[]), deep.clone()])), 4, 12),
        refused("over 40 levels, then a kind byte 4", file(&array(&[deep.clone(), value(4, &[])])), 10, 281),
        refused("over 40 levels, then a spare byte", [&file(&arrays(40, leaf()))[..], &[0]].concat(), 10, 281),
        refused("version 0, and over 40 levels", [&[0], &file(&arrays(40, leaf()))[1..]].concat(), 2, 0),
    ]
}

/// Members of one name. The first name of an outermost struct stands at 8; a name of one byte and its leaf take 7.
fn names() -> Vec<Case> {
    let of = |names: &[&str]| {
        let all: Vec<_> = names.iter().map(|name| (*name, leaf())).collect();
        members(&all)
    };
    let row = |names: &[&str]| file(&of(names));
    let long = |end: &str| format!("{}{end}", "x".repeat(127));
    let held = |first: Vec<u8>, second: Vec<u8>| file(&members(&[("a", first), ("a", second)]));
    vec![
        refused("two equal names", row(&["a", "a"]), 6, 15),
        accepted("two names that differ in case", row(&["a", "A"])),
        accepted("a longer name in four spellings", row(&["Speed", "SPEED", "speed", "sPEED"])),
        refused("a longer name twice", row(&["Speed", "SPEED", "Speed"]), 6, 30),
        refused("two empty names", row(&["", ""]), 6, 14),
        refused("an empty name at both ends", row(&["", "a", ""]), 6, 21),
        refused("the third name equal to the first", row(&["a", "b", "a"]), 6, 22),
        refused("the third name equal to the second, the fourth to the first", row(&["a", "b", "b", "a"]), 6, 22),
        refused("one name three times", row(&["a", "a", "a"]), 6, 15),
        accepted("names that begin one another", row(&["a", "ab", "abc", ""])),
        accepted("names of the same bytes in another order", row(&["ab", "ba"])),
        refused("two equal names of 128 bytes", row(&[&long("y"), &long("y")]), 6, 142),
        accepted("two names of 128 bytes that differ at the end", row(&[&long("y"), &long("z")])),
        refused("two equal names of different values", file(&members(&[("a", leaf()), ("a", array(&[]))])), 6, 15),
        accepted("one name in two structs", file(&array(&[of(&["a"]), of(&["a"])]))),
        accepted("one name outside and inside", file(&members(&[("a", of(&["a"]))]))),
        refused("two equal names in an array's struct", file(&array(&[of(&["a", "a"])])), 6, 22),
        refused("two equal names in the second item", file(&array(&[of(&["a"]), of(&["a", "a"])])), 6, 36),
        refused("two equal names inside, then outside", held(of(&["x", "x"]), leaf()), 6, 24),
        refused("two equal names outside, then inside", held(leaf(), of(&["x", "x"])), 6, 15),
        refused("two equal names at level 39", file(&structs(38, of(&["a", "a"]))), 6, 357),
    ]
}

/// Structs of many members, each a name of two bytes and a leaf: 8 bytes, so the member of a position has its name at
/// 8 times one more.
fn many_names() -> Vec<Case> {
    let row = |count: usize, again: Option<(usize, usize)>| {
        let mut names = two_bytes(count);
        if let Some((position, earlier)) = again {
            names[position] = names[earlier].clone();
        }
        let all: Vec<_> = names.iter().map(|name| (name.as_str(), leaf())).collect();
        file(&members(&all))
    };
    vec![
        accepted("16 names", row(16, None)),
        accepted("17 names", row(17, None)),
        refused("the last of 16 names equal to the first", row(16, Some((15, 0))), 6, 128),
        refused("the last of 17 names equal to the first", row(17, Some((16, 0))), 6, 136),
        refused("the last of 17 names equal to the one before", row(17, Some((16, 15))), 6, 136),
        refused("the tenth of 17 names equal to the fourth", row(17, Some((9, 3))), 6, 80),
        refused("the second of 100 names equal to the first", row(100, Some((1, 0))), 6, 16),
        refused("the last of 2,000 names equal to the first", row(2000, Some((1999, 0))), 6, 16_000),
    ]
}

/// The first so many names of two bytes.
fn two_bytes(count: usize) -> Vec<String> {
    let pairs = (32..=126u8).flat_map(|a| (32..=126u8).map(move |b| [a, b].map(char::from).iter().collect()));
    pairs.take(count).collect()
}

/// Two equal names, and another fault anywhere in the file: 6 comes last. The second name stands at 15.
fn in_order() -> Vec<Case> {
    let twins = |value: Vec<u8>| members(&[("a", leaf()), ("a", value)]);
    let third = |name: &str| file(&members(&[("a", leaf()), ("a", leaf()), (name, leaf())]));
    let before = |first: Vec<u8>| file(&array(&[first, twins(leaf())]));
    let after = |second: Vec<u8>| file(&array(&[twins(leaf()), second]));
    let spare = value(2, &[&[0, 2][..], &twins(leaf())[7..], &[0]].concat());
    vec![
        refused("two equal names, then a spare byte", [&file(&twins(leaf()))[..], &[0]].concat(), 3, 22),
        refused("two equal names, then a spare byte in the struct", file(&spare), 3, 22),
        refused("two equal names, the second's value without a kind byte", file(&twins(vec![0; 4])), 3, 21),
        refused("two equal names, the second's value running past", file(&twins(vec![0, 0, 0, 2, 0])), 3, 17),
        refused("two equal names, the second's value of kind 4", file(&twins(value(4, &[]))), 4, 21),
        refused("two equal names, then a name with the byte 31", third("\x1f"), 4, 23),
        refused("two equal names, then a name of 129 bytes", third(&"x".repeat(129)), 5, 22),
        refused("two equal names, then over 40 levels", file(&twins(arrays(39, leaf()))), 10, 290),
        refused("two equal names, then an item of kind 4", after(value(4, &[])), 4, 33),
        refused("two equal names, then an item without a kind byte", after(vec![0; 4]), 3, 33),
        refused("an item of kind 4, then two equal names", before(value(4, &[])), 4, 12),
        refused("two equal names behind a good item", before(leaf()), 6, 27),
        refused("version 0, and two equal names", [&[0], &file(&twins(leaf()))[1..]].concat(), 2, 0),
    ]
}

/// Files of as many bytes as there may be, and one more.
fn large() -> Vec<Case> {
    vec![
        accepted("13,105 items in 65,536 bytes", items(3)),
        refused("65,537 bytes, and version 2", [&[2], &items(4)[1..]].concat(), 1, LIMIT as u64),
        accepted("8,203 members, the most of different names that fit", widest()),
    ]
}

/// 13,105 leaves, the last of so many bytes: with 3 the file has 65,536 bytes.
fn items(last: usize) -> Vec<u8> {
    let mut items = vec![leaf(); 13_104];
    items.push(value(0, &vec![7; last]));
    file(&array(&items))
}

/// The name of no bytes, the 95 of one byte and 8,107 of two.
fn widest() -> Vec<u8> {
    let one_byte = (32..=126u8).map(|b| char::from(b).to_string());
    let names: Vec<String> = [String::new()].into_iter().chain(one_byte).chain(two_bytes(8107)).collect();
    let all: Vec<_> = names.iter().map(|name| (name.as_str(), leaf())).collect();
    file(&members(&all))
}

/// A value file: the version and a value.
fn file(value: &[u8]) -> Vec<u8> {
    [&[1], value].concat()
}

/// A value: its length, its kind byte and what follows that.
fn value(kind: u8, rest: &[u8]) -> Vec<u8> {
    let length = (rest.len() + 1) as u32;
    [&length.to_be_bytes()[..], &[kind], rest].concat()
}

/// A leaf without bytes, 5 bytes long.
fn leaf() -> Vec<u8> {
    value(0, &[])
}

fn array(items: &[Vec<u8>]) -> Vec<u8> {
    let count = items.len() as u16;
    value(1, &[&count.to_be_bytes()[..], &items.concat()].concat())
}

fn members(members: &[(&str, Vec<u8>)]) -> Vec<u8> {
    let mut rest = (members.len() as u16).to_be_bytes().to_vec();
    for (name, value) in members {
        rest.push(name.len() as u8);
        rest.extend_from_slice(name.as_bytes());
        rest.extend_from_slice(value);
    }
    value(2, &rest)
}

/// So many arrays of one item each around a value.
fn arrays(count: usize, inner: Vec<u8>) -> Vec<u8> {
    (0..count).fold(inner, |inner, _| array(&[inner]))
}

/// So many structs of one member `m` each around a value.
fn structs(count: usize, inner: Vec<u8>) -> Vec<u8> {
    (0..count).fold(inner, |inner, _| members(&[("m", inner)]))
}
