//! Names: good ones, near misses, and rows of the characters that matter to the lexical calls.

use crate::random::Random;

const WORDS: &[&str] = &["A", "Motor", "_x", "Speed", "b2", "Trend", "Zed_9", "x", "__"];
const ALPHABET: &[u8] = b"AaZz_09..[[]],{}: PpRrOoGgRrAaMm";
const NUMBERS: &[&str] = &[
    "0",
    "3",
    "03",
    "113",
    "255",
    "256",
    "70000",
    "1000000",
    "18446744073709551615",
    "18446744073709551616",
    "99999999999999999999999999",
    "00000000000000000000000007",
    "000018446744073709551615",
];
const PROGRAMS: &[&str] = &[
    "Program:Main.",
    "program:.",
    "PROGRAM:a b[c{.",
    "pRoGrAm:P.",
    "Program:Main",
    "program:",
    "Program.",
    "Program:Main..",
];

/// A name for the lexical calls, of up to 136 bytes.
pub fn name(random: &mut Random) -> Vec<u8> {
    let mut name = match random.below(10) {
        0..4 => good(random),
        4..7 => mutated(random),
        7 => rows(random),
        8 => format!("{}{{{}}}", good(random), random.pick(NUMBERS)),
        _ => long(random),
    };
    name.truncate(136);
    name.into_bytes()
}

/// A name that has tokens, but for numbers over 64 bits.
pub fn good(random: &mut Random) -> String {
    let mut name = match random.chance(25) {
        true => random.pick(&PROGRAMS[..4]).to_string(),
        false => String::new(),
    };
    name += *random.pick(WORDS);
    for _ in 0..random.below(5) {
        match random.below(4) {
            0 | 1 => name += &format!(".{}", random.pick(WORDS)),
            2 => name += &format!("[{}]", number(random)),
            _ => {
                let count = random.within(2, 4);
                let numbers: Vec<_> = (0..count).map(|_| number(random)).collect();
                name += &format!("[{}]", numbers.join(","));
            }
        }
    }
    name
}

fn number(random: &mut Random) -> String {
    match random.chance(85) {
        true => random.below(300).to_string(),
        false => random.pick(NUMBERS).to_string(),
    }
}

/// A good name with one to three bytes dropped, doubled, replaced or put in.
fn mutated(random: &mut Random) -> String {
    let mut name = match random.chance(20) {
        true => format!("{}{}", random.pick(PROGRAMS), random.pick(WORDS)),
        false => good(random),
    };
    if random.chance(20) {
        name += &format!("{{{}}}", number(random));
    }
    for _ in 0..random.within(1, 3) {
        let place = random.below(name.len() + 1);
        let byte = char::from(*random.pick(ALPHABET));
        match random.below(3) {
            0 if place < name.len() => drop(name.remove(place)),
            1 if place < name.len() => name.replace_range(place..=place, &byte.to_string()),
            _ => name.insert(place, byte),
        }
    }
    name
}

fn rows(random: &mut Random) -> String {
    let length = random.weighted(&[(6, 12), (2, 40), (1, 137)]);
    let length = random.below(length);
    (0..length).map(|_| char::from(*random.pick(ALPHABET))).collect()
}

/// A name of 100 to 136 bytes, good or nearly.
fn long(random: &mut Random) -> String {
    let length = random.weighted(&[(3, 136), (1, 135), (2, 100)]);
    let mut name = good(random);
    while name.len() < length {
        match random.below(3) {
            0 => name += &format!(".{}", random.pick(WORDS)),
            1 => name += &format!("[{}]", number(random)),
            _ => name += *random.pick(&["a", "Bc", "_", "7"]),
        }
    }
    if random.chance(40) {
        name.truncate(length.saturating_sub(4));
        name += "{12}";
    }
    name
}
