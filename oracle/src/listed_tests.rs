//! The comparison of the call that plans, held against the oracle itself and against calls that do something wrong.

use std::sync::atomic::{AtomicU64, Ordering};

use crate::compare::tests::{RIGHT, run};
use crate::library::{FilesCall, Library};
use crate::list::List;
use crate::planned::tests::{taken, written};
use crate::{listed, plan};

unsafe fn bytes(file: *const u8, size: usize) -> Vec<u8> {
    unsafe { std::slice::from_raw_parts(file, size) }.to_vec()
}

pub(crate) unsafe extern "C" fn plan(c: *const u8, n: usize, l: *const u8, m: usize, out: *mut u8, room: usize) -> u64 {
    let fields = unsafe { [bytes(c, n), bytes(l, m)] };
    match listed::refusal(&fields) {
        Some(refusal) => refusal.returned(),
        None => written(&plan::answer(&fields[0], &fields[1]).expect("accepted files are planned"), out, room),
    }
}

/// Plans as if the list said something else.
unsafe fn changed(change: fn(&mut List), c: (*const u8, usize), l: (*const u8, usize), out: (*mut u8, usize)) -> u64 {
    let file = unsafe { bytes(l.0, l.1) };
    let file = match List::read(&file) {
        Ok(mut list) => {
            change(&mut list);
            list.write()
        }
        Err(_) => file,
    };
    unsafe { plan(c.0, c.1, file.as_ptr(), file.len(), out.0, out.1) }
}

/// Takes a no-group name in any case.
unsafe extern "C" fn lowering(c: *const u8, n: usize, l: *const u8, m: usize, out: *mut u8, room: usize) -> u64 {
    let lower = |list: &mut List| list.no_group.iter_mut().for_each(|name| name.make_ascii_lowercase());
    unsafe { changed(lower, (c, n), (l, m), (out, room)) }
}

/// Knows no together names.
unsafe extern "C" fn apart(c: *const u8, n: usize, l: *const u8, m: usize, out: *mut u8, room: usize) -> u64 {
    unsafe { changed(|list| list.together.clear(), (c, n), (l, m), (out, room)) }
}

/// Plans with a budget one larger.
unsafe extern "C" fn roomy(c: *const u8, n: usize, l: *const u8, m: usize, out: *mut u8, room: usize) -> u64 {
    unsafe { changed(|list| list.budget = list.budget.saturating_add(1), (c, n), (l, m), (out, room)) }
}

/// Takes a struct that is one byte over the whole maximum.
unsafe extern "C" fn wider(c: *const u8, n: usize, l: *const u8, m: usize, out: *mut u8, room: usize) -> u64 {
    unsafe { changed(|list| list.whole_max = list.whole_max.saturating_add(1), (c, n), (l, m), (out, room)) }
}

/// Reads every tag by itself.
unsafe extern "C" fn plain(c: *const u8, n: usize, l: *const u8, m: usize, out: *mut u8, room: usize) -> u64 {
    let bar = |list: &mut List| {
        list.together.clear();
        list.whole_max = 0;
        list.budget = 0;
    };
    unsafe { changed(bar, (c, n), (l, m), (out, room)) }
}

/// Writes what fits of an answer that is too long.
unsafe extern "C" fn partial(c: *const u8, n: usize, l: *const u8, m: usize, out: *mut u8, room: usize) -> u64 {
    let returned = unsafe { plan(c, n, l, m, out, room) };
    if returned >> 56 == 9 && room > 0 {
        unsafe { *out = 1 };
    }
    returned
}

/// Tells the bytes that are missing, not those needed.
unsafe extern "C" fn missing(c: *const u8, n: usize, l: *const u8, m: usize, out: *mut u8, room: usize) -> u64 {
    match unsafe { plan(c, n, l, m, out, room) } {
        returned if returned >> 56 == 9 => returned - room as u64,
        returned => returned,
    }
}

/// Writes before it refuses a file.
unsafe extern "C" fn hasty(c: *const u8, n: usize, l: *const u8, m: usize, out: *mut u8, room: usize) -> u64 {
    let returned = unsafe { plan(c, n, l, m, out, room) };
    if returned >> 56 == 3 && room > 0 {
        unsafe { *out = 1 };
    }
    returned
}

/// Writes one byte past the answer.
unsafe extern "C" fn spilling(c: *const u8, n: usize, l: *const u8, m: usize, out: *mut u8, room: usize) -> u64 {
    let returned = unsafe { plan(c, n, l, m, out, room) };
    if returned < room as u64 {
        unsafe { *out.add(returned as usize) = 7 };
    }
    returned
}

/// Takes a byte behind the list.
unsafe extern "C" fn lax(c: *const u8, n: usize, l: *const u8, m: usize, out: *mut u8, room: usize) -> u64 {
    let returned = unsafe { plan(c, n, l, m, out, room) };
    match returned >> 56 == 3 && m > 1 {
        true => taken(unsafe { plan(c, n, l, m - 1, out, room) }, returned),
        false => returned,
    }
}

/// Refuses an index too large at its bracket.
unsafe extern "C" fn early(c: *const u8, n: usize, l: *const u8, m: usize, out: *mut u8, room: usize) -> u64 {
    match unsafe { plan(c, n, l, m, out, room) } {
        returned if returned >> 56 == 8 => returned - 1,
        returned => returned,
    }
}

/// Refuses a file with another place at every other call.
unsafe extern "C" fn fickle(c: *const u8, n: usize, l: *const u8, m: usize, out: *mut u8, room: usize) -> u64 {
    static CALLS: AtomicU64 = AtomicU64::new(0);
    match unsafe { plan(c, n, l, m, out, room) } {
        returned if returned >> 56 == 3 => returned + CALLS.fetch_add(1, Ordering::Relaxed) % 2,
        returned => returned,
    }
}

fn wrong(call: FilesCall) -> String {
    let (text, same) = run(Library { plan: call, ..RIGHT }, "plan");
    assert!(!same, "{text}");
    text
}

#[test]
fn every_kind_of_damage_is_among_the_cases() {
    let (text, same) = run(RIGHT, "plan");
    assert!(same, "{text}");
    for what in ["the list |", "the catalog |", "bad too", "spoilt, and not refused"] {
        assert!(text.contains(what), "{what}");
    }
    for what in ["room: just enough", "room: more", "one byte short", "room: none", "merge of a run", "lists of more"] {
        assert!(text.contains(what), "{what}");
    }
}

#[test]
fn the_catalog_is_told_first() {
    let (list, catalog) = (vec![1, 0, 0, 0, 0, 0, 0, 1, 1], vec![1, 0, 0, 0, 0]);
    let told = |fields: [Vec<u8>; 2]| listed::refusal(&fields).map(|refusal| refusal.sent_back);
    assert_eq!(told([catalog.clone(), List::default().write()]), None);
    assert_eq!(told([catalog.clone(), list.clone()]), Some((5, 7)));
    assert_eq!(told([vec![], list.clone()]), Some((2, 0)));
    assert_eq!(told([catalog, list[..8].to_vec()]), Some((3, 7)));
}

#[test]
fn wrong_plans_are_found_and_made_small() {
    for call in [lowering as FilesCall, apart, roomy, wider, plain] {
        let text = wrong(call);
        let smallest = text.lines().filter_map(|l| l.trim().strip_prefix("LIST ")).map(str::len).min();
        assert!(smallest.is_some_and(|length| length < 400), "{text}");
    }
}

#[test]
fn wrong_refusals_are_found() {
    assert!(wrong(partial).contains("byte 0 of the output is 1"));
    assert!(wrong(missing).contains("with number 9, not"));
    assert!(wrong(hasty).contains("byte 0 of the output is 1"));
    assert!(wrong(spilling).contains("of the output is 7"));
    assert!(wrong(lax).contains("with number 0, not"));
    assert!(wrong(early).contains("with number 8, not"));
    assert!(wrong(fickle).contains("with number 3, not"));
}
