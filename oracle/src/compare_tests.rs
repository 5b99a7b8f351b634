//! The comparison held against a library made of the oracle itself, and against ones that do something wrong.

use super::compare;
use crate::catalog::Catalog;
use crate::cuts::tests::{dig, sort};
use crate::library::{CALLS, Library, struct_part};
use crate::listed::tests::plan;
use crate::packed::tests::{chunks, packets};
use crate::planned::tests::plan_chunks;
use crate::{lookup, names, worst};

type Answer = fn(&[u8]) -> Result<Vec<u8>, String>;

/// Does what an exported function has to do, the answer being given.
unsafe fn export(answer: Answer, name: (*const u8, usize), out: (*mut u8, usize), limited: bool) -> u64 {
    let name = unsafe { std::slice::from_raw_parts(name.0, name.1) };
    if limited && name.len() > names::LONGEST {
        return 5 << 56;
    }
    let answer = answer(name).expect("only texts are asked");
    if answer.len() > out.1 {
        return 9 << 56 | answer.len() as u64;
    }
    unsafe { std::slice::from_raw_parts_mut(out.0, answer.len()) }.copy_from_slice(&answer);
    answer.len() as u64
}

unsafe extern "C" fn tokens(name: *const u8, length: usize, out: *mut u8, room: usize) -> u64 {
    unsafe { export(names::tokens, (name, length), (out, room), true) }
}

unsafe extern "C" fn strip(name: *const u8, length: usize, out: *mut u8, room: usize) -> u64 {
    unsafe { export(names::strip, (name, length), (out, room), false) }
}

unsafe extern "C" fn range(name: *const u8, length: usize, out: *mut u8, room: usize) -> u64 {
    unsafe { export(names::range, (name, length), (out, room), true) }
}

/// Closes a bracket that is open at the end.
unsafe extern "C" fn lax_tokens(name: *const u8, length: usize, out: *mut u8, room: usize) -> u64 {
    let wrong: Answer = |name| match names::tokens(name)? {
        none if none == [0] && name.len() < names::LONGEST => names::tokens(&[name, b"]"].concat()),
        right => Ok(right),
    };
    unsafe { export(wrong, (name, length), (out, room), true) }
}

/// Writes one byte past the room.
unsafe extern "C" fn spilling(name: *const u8, length: usize, out: *mut u8, room: usize) -> u64 {
    let returned = unsafe { export(names::strip, (name, length), (out, room), false) };
    unsafe { *out.add(room) = 7 };
    returned
}

/// Writes before it refuses.
unsafe extern "C" fn hasty(name: *const u8, length: usize, out: *mut u8, room: usize) -> u64 {
    let returned = unsafe { export(names::range, (name, length), (out, room), true) };
    if returned >> 56 == 9 && room > 0 {
        unsafe { *out = 1 };
    }
    returned
}

/// What an exported lookup has to return: a part of the sizes, or that the name is too long.
unsafe fn size(part: fn(Vec<u8>) -> Vec<u8>, catalog: (*const u8, usize), name: (*const u8, usize)) -> u64 {
    let catalog = unsafe { std::slice::from_raw_parts(catalog.0, catalog.1) };
    let name = unsafe { std::slice::from_raw_parts(name.0, name.1) };
    if name.len() > names::LONGEST {
        return 5 << 56;
    }
    let sizes = lookup::sizes(catalog, name).expect("only catalogs and texts are asked");
    part(sizes).iter().fold(0, |n, b| n << 8 | u64::from(*b))
}

unsafe extern "C" fn request_size(catalog: *const u8, size_of: usize, name: *const u8, length: usize) -> u64 {
    unsafe { size(|sizes| sizes[..8].to_vec(), (catalog, size_of), (name, length)) }
}

unsafe extern "C" fn reply_size(catalog: *const u8, size_of: usize, name: *const u8, length: usize) -> u64 {
    unsafe { size(|sizes| sizes[8..16].to_vec(), (catalog, size_of), (name, length)) }
}

unsafe extern "C" fn struct_size(catalog: *const u8, size_of: usize, name: *const u8, length: usize) -> u64 {
    unsafe { size(struct_part, (catalog, size_of), (name, length)) }
}

/// Accepts what the oracle takes.
unsafe extern "C" fn catalog(file: *const u8, size: usize) -> u64 {
    let file = unsafe { std::slice::from_raw_parts(file, size) };
    u64::from(Catalog::read(file).is_err()) << 56
}

pub(crate) const RIGHT: Library = Library {
    tokens,
    strip,
    range,
    catalog,
    request_size,
    reply_size,
    struct_size,
    plan,
    chunks,
    packets,
    plan_chunks,
    dig,
    sort,
};

pub(crate) fn run(library: Library, kind: &str) -> (String, bool) {
    let (lines, same) = compare(&library, kind, 4000, 1).expect("the comparison runs");
    (lines.join("\n"), same)
}

#[test]
fn the_oracle_does_not_differ_from_itself() {
    for call in CALLS {
        let (text, same) = run(RIGHT, call.name);
        assert!(same, "{text}");
        assert!(text.contains("0 differences in 4000 cases"));
    }
}

#[test]
fn a_wrong_answer_is_found_and_made_small() {
    let (text, same) = run(Library { tokens: lax_tokens, ..RIGHT }, "tokens");
    assert!(!same);
    let smallest = text.lines().filter_map(|l| l.trim().strip_prefix("NAME ")).map(str::len).min();
    assert_eq!(smallest, Some("415b30 \"A[0\"".len()), "{text}");
}

#[test]
fn a_byte_beside_the_output_is_found() {
    let (text, same) = run(Library { strip: spilling, ..RIGHT }, "strip");
    assert!(!same && text.contains("beside the output"), "{text}");
}

#[test]
fn a_write_before_a_refusal_is_found() {
    let (text, same) = run(Library { range: hasty, ..RIGHT }, "range");
    assert!(!same && text.contains("byte 0 of the output is 1"), "{text}");
}

#[test]
fn a_call_that_the_library_lacks_is_said() {
    assert!(compare(&RIGHT, "info", 1, 1).is_err());
}

#[test]
fn one_size_for_another_is_found() {
    for (library, name) in [
        (Library { request_size: reply_size, ..RIGHT }, "request_size"),
        (Library { reply_size: struct_size, ..RIGHT }, "reply_size"),
        (Library { struct_size: request_size, ..RIGHT }, "struct_size"),
    ] {
        let (text, same) = run(library, name);
        assert!(!same, "{text}");
    }
}

#[test]
fn the_catalogs_that_take_long_are_accepted() {
    let lines = worst::lines(&RIGHT);
    assert_eq!(lines.len(), 4);
    for line in &lines[..3] {
        assert!(line.contains("refusal 0"), "{line}");
    }
    assert!(lines[3].contains(": 8,"), "{}", lines[3]);
}
