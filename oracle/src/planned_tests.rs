//! The comparison of the call over a catalog and a plan, held against the oracle itself and against calls that do
//! something wrong.

use std::sync::atomic::{AtomicU64, Ordering};

use crate::compare::tests::{RIGHT, run};
use crate::groups;
use crate::library::Library;
use crate::planned::{self, PlannedCall};
use crate::signatures::planned_calls;

/// A lent file.
type File = (*const u8, usize);

pub(crate) fn written(answer: &[u8], out: *mut u8, room: usize) -> u64 {
    if answer.len() > room {
        return 9 << 56 | answer.len() as u64;
    }
    unsafe { std::slice::from_raw_parts_mut(out, answer.len()) }.copy_from_slice(answer);
    answer.len() as u64
}

/// What is returned without the last byte if that is accepted, else what is returned with it.
pub(crate) fn taken(without: u64, with: u64) -> u64 {
    if without >> 56 == 0 { without } else { with }
}

/// The groups, or what is returned for files that are refused.
unsafe fn answer(catalog: File, plan: File, budget: u16) -> Result<Vec<u8>, u64> {
    let bytes = |file: File| unsafe { std::slice::from_raw_parts(file.0, file.1) }.to_vec();
    let fields = [bytes(catalog), bytes(plan)];
    match planned::refusal(&fields) {
        Some(refusal) => Err(refusal.returned()),
        None => Ok(groups::plan_chunks(&fields[0], &fields[1], budget).expect("accepted files are grouped")),
    }
}

planned_calls! {
    pub(crate) fn plan_chunks(c, n, p, m, budget, out, room) {
        match unsafe { answer((c, n), (p, m), budget) } {
            Ok(answer) => written(&answer, out, room),
            Err(returned) => returned,
        }
    }

    /// Writes before it refuses a file.
    fn hasty(c, n, p, m, budget, out, room) {
        let returned = unsafe { plan_chunks(c, n, p, m, budget, out, room) };
        if returned >> 56 == 3 && room > 0 {
            unsafe { *out = 1 };
        }
        returned
    }

    /// Takes a byte behind the plan.
    fn lax(c, n, p, m, budget, out, room) {
        let returned = unsafe { plan_chunks(c, n, p, m, budget, out, room) };
        match returned >> 56 == 3 && m > 1 {
            true => taken(unsafe { plan_chunks(c, n, p, m - 1, budget, out, room) }, returned),
            false => returned,
        }
    }

    /// Refuses a file with another place at every other call.
    fn fickle(c, n, p, m, budget, out, room) {
        static CALLS: AtomicU64 = AtomicU64::new(0);
        let returned = unsafe { plan_chunks(c, n, p, m, budget, out, room) };
        match returned >> 56 == 3 {
            true => returned + CALLS.fetch_add(1, Ordering::Relaxed) % 2,
            false => returned,
        }
    }

    /// Refuses with a place past the end.
    fn far(c, n, p, m, budget, out, room) {
        match unsafe { plan_chunks(c, n, p, m, budget, out, room) } {
            returned if returned >> 56 == 3 => returned + n.max(m) as u64 + 1,
            returned => returned,
        }
    }

    /// Takes a budget one larger.
    fn roomy(c, n, p, m, budget, out, room) {
        unsafe { plan_chunks(c, n, p, m, budget.saturating_add(1), out, room) }
    }
}

fn wrong(call: PlannedCall) -> String {
    let (text, same) = run(Library { plan_chunks: call, ..RIGHT }, "plan_chunks");
    assert!(!same, "{text}");
    text
}

#[test]
fn every_kind_of_damage_is_among_the_cases() {
    let (text, same) = run(RIGHT, "plan_chunks");
    assert!(same, "{text}");
    for what in ["the plan |", "the catalog |", "bad too", "spoilt, and not refused", "one byte short", "room: none"] {
        assert!(text.contains(what), "{what}");
    }
    for what in ["not found", "no tokens", "a range of structs", "a range of bits", "more than 100 reads"] {
        assert!(text.contains(what), "{what}");
    }
}

#[test]
fn wrong_refusals_are_found() {
    assert!(wrong(hasty).contains("byte 0 of the output is 1"));
    assert!(wrong(lax).contains("with number 0, not"));
    assert!(wrong(fickle).contains("with number 3, not"));
    assert!(wrong(far).contains("with number 3, not"));
}

#[test]
fn a_wrong_packing_is_found_and_made_small() {
    let text = wrong(roomy);
    let smallest = text.lines().filter_map(|l| l.trim().strip_prefix("PLAN ")).map(str::len).min();
    assert!(smallest.is_some_and(|length| length < 60), "{text}");
}
