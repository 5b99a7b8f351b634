//! The comparison of the calls over values and results, held against the oracle itself and against calls that do
//! something wrong.

use crate::compare::tests::{RIGHT, run};
use crate::library::Library;
use crate::planned::tests::{taken, written};
use crate::{cuts, results, value};

/// The fields of a case with these inputs.
unsafe fn fields(first: (*const u8, usize), second: (*const u8, usize)) -> Vec<Vec<u8>> {
    let bytes = |file: (*const u8, usize)| unsafe { std::slice::from_raw_parts(file.0, file.1) }.to_vec();
    vec![bytes(first), bytes(second)]
}

pub(crate) unsafe extern "C" fn dig(v: *const u8, n: usize, p: *const u8, m: usize) -> u64 {
    let fields = unsafe { fields((v, n), (p, m)) };
    match cuts::dig_refusal(&fields) {
        Some(refusal) => refusal.returned(),
        None => {
            let place = value::dig(&fields[0], &fields[1]).expect("an accepted value is cut");
            place.iter().fold(0, |n, b| n << 8 | u64::from(*b))
        }
    }
}

pub(crate) unsafe extern "C" fn sort(p: *const u8, n: usize, r: *const u8, m: usize, out: *mut u8, room: usize) -> u64 {
    let fields = unsafe { fields((p, n), (r, m)) };
    match cuts::sort_refusal(&fields) {
        Some(refusal) => refusal.returned(),
        None => written(&results::sort(&fields[0], &fields[1]).expect("accepted files are sorted"), out, room),
    }
}

/// Takes a value that has a byte too many.
unsafe extern "C" fn lax_dig(v: *const u8, n: usize, p: *const u8, m: usize) -> u64 {
    let returned = unsafe { dig(v, n, p, m) };
    match returned >> 56 == 3 && n > 1 {
        true => taken(unsafe { dig(v, n - 1, p, m) }, returned),
        false => returned,
    }
}

/// Tells a cut by the place of its kind byte.
unsafe extern "C" fn behind(v: *const u8, n: usize, p: *const u8, m: usize) -> u64 {
    match unsafe { dig(v, n, p, m) } {
        place @ 1..0x100_0000 => place + 4,
        other => other,
    }
}

/// Refuses with a number that no path gets and no value.
unsafe extern "C" fn foreign(v: *const u8, n: usize, p: *const u8, m: usize) -> u64 {
    match unsafe { dig(v, n, p, m) } {
        returned if returned >> 56 == 3 => 8 << 56,
        returned => returned,
    }
}

/// Writes before it refuses a file.
unsafe extern "C" fn hasty(p: *const u8, n: usize, r: *const u8, m: usize, out: *mut u8, room: usize) -> u64 {
    let returned = unsafe { sort(p, n, r, m, out, room) };
    if returned >> 56 == 3 && room > 0 {
        unsafe { *out = 1 };
    }
    returned
}

/// Tells counts that differ by the larger one.
unsafe extern "C" fn larger(p: *const u8, n: usize, r: *const u8, m: usize, out: *mut u8, room: usize) -> u64 {
    match unsafe { sort(p, n, r, m, out, room) } {
        returned if returned >> 56 == 11 => returned + 1,
        returned => returned,
    }
}

/// Writes one byte past the answer.
unsafe extern "C" fn spilling(p: *const u8, n: usize, r: *const u8, m: usize, out: *mut u8, room: usize) -> u64 {
    let returned = unsafe { sort(p, n, r, m, out, room) };
    if returned < room as u64 {
        unsafe { *out.add(returned as usize) = 7 };
    }
    returned
}

/// Ends with a wrong byte.
unsafe extern "C" fn astray(p: *const u8, n: usize, r: *const u8, m: usize, out: *mut u8, room: usize) -> u64 {
    let returned = unsafe { sort(p, n, r, m, out, room) };
    if returned >> 56 == 0 && returned > 5 {
        unsafe { *out.add(returned as usize - 1) = 9 };
    }
    returned
}

fn wrong(library: Library, call: &str) -> String {
    let (text, same) = run(library, call);
    assert!(!same, "{text}");
    text
}

#[test]
fn every_kind_of_damage_is_among_the_cases() {
    let (text, same) = run(RIGHT, "dig");
    assert!(same, "{text}");
    for what in ["the value |", "the path |", "bad too", "spoilt, and not refused", "the deepest value", "not there"] {
        assert!(text.contains(what), "{what}");
    }
    let (text, same) = run(RIGHT, "sort");
    assert!(same, "{text}");
    for what in
        ["the plan |", "the results |", "bad too", "different counts", "spoilt, and not refused", "one byte short"]
    {
        assert!(text.contains(what), "{what}");
    }
}

#[test]
fn wrong_cuts_are_found_and_made_small() {
    assert!(wrong(Library { dig: lax_dig, ..RIGHT }, "dig").contains("with number 0, not"));
    assert!(wrong(Library { dig: foreign, ..RIGHT }, "dig").contains("with number 8, not"));
    let text = wrong(Library { dig: behind, ..RIGHT }, "dig");
    let smallest = text.lines().filter_map(|l| l.trim().strip_prefix("VALUE ")).map(str::len).min();
    assert!(smallest.is_some_and(|length| length < 60), "{text}");
}

#[test]
fn wrong_sortings_are_found() {
    assert!(wrong(Library { sort: hasty, ..RIGHT }, "sort").contains("byte 0 of the output is 1"));
    assert!(wrong(Library { sort: larger, ..RIGHT }, "sort").contains("with number 11"));
    assert!(wrong(Library { sort: spilling, ..RIGHT }, "sort").contains("of the output is 7"));
    assert!(wrong(Library { sort: astray, ..RIGHT }, "sort").contains("of the output is 9"));
}
