//! The comparison of the calls over size tables, held against the oracle itself and against calls that do something
//! wrong.

use std::sync::atomic::{AtomicU64, Ordering};

use super::{LARGEST, MOST, refusal};
use crate::bytes::table_bytes;
use crate::compare::tests::{RIGHT, run};
use crate::groups;
use crate::library::Library;
use crate::refusals::SentBack;
use crate::signatures::{chunks_calls, packets_calls};

/// A lent table.
type Table = (*const u64, usize);

/// The fields of a case with these tables; a table of no entries may have any pointer.
unsafe fn fields(t: Table, u: Table, budget: u16) -> Vec<Vec<u8>> {
    let bytes = |table: Table| table_bytes(unsafe { std::slice::from_raw_parts(table.0, table.1) });
    vec![bytes(t), bytes(u), budget.to_be_bytes().to_vec()]
}

fn refused(fields: &[Vec<u8>]) -> Option<u64> {
    refusal(fields).map(|refusal| refusal.returned())
}

chunks_calls! {
    pub(crate) fn chunks(t, n, u, m, budget, out, room) {
        let fields = unsafe { fields((t, n), (u, m), budget) };
        if let Some(returned) = refused(&fields) {
            return returned;
        }
        let answer = groups::chunks(&fields[0], &fields[1], budget).expect("the tables are accepted");
        if answer.len() > room {
            return 9 << 56 | answer.len() as u64;
        }
        unsafe { std::slice::from_raw_parts_mut(out, answer.len()) }.copy_from_slice(&answer);
        answer.len() as u64
    }
}

packets_calls! {
    pub(crate) fn packets(t, n, u, m, budget) {
        let fields = unsafe { fields((t, n), (u, m), budget) };
        if let Some(returned) = refused(&fields) {
            return returned;
        }
        let answer = groups::packets(&fields[0], &fields[1], budget).expect("the tables are accepted");
        answer.iter().fold(0, |n, b| n << 8 | u64::from(*b))
    }
}

chunks_calls! {
    /// Writes before it refuses tables of different counts.
    fn hasty(t, n, u, m, budget, out, room) {
        let returned = unsafe { chunks(t, n, u, m, budget, out, room) };
        if returned >> 56 == 11 && room > 0 {
            unsafe { *out = 1 };
        }
        returned
    }

    /// Fills one byte more than it tells, where there is room.
    fn behind(t, n, u, m, budget, out, room) {
        let returned = unsafe { chunks(t, n, u, m, budget, out, room) };
        if returned >> 56 == 0 && returned < room as u64 {
            unsafe { *out.add(returned as usize) = 0xa5 };
        }
        returned
    }
}

packets_calls! {
    /// Takes a budget one larger.
    fn roomy(t, n, u, m, budget) {
        unsafe { packets(t, n, u, m, budget.saturating_add(1)) }
    }

    /// Looks at the replies first.
    fn crossed(t, n, u, m, budget) {
        let fields = unsafe { fields((u, m), (t, n), budget) };
        match refused(&fields) {
            Some(returned) => returned,
            None => unsafe { packets(t, n, u, m, budget) },
        }
    }

    /// Is right at every other call only.
    fn fickle(t, n, u, m, budget) {
        static CALLS: AtomicU64 = AtomicU64::new(0);
        unsafe { packets(t, n, u, m, budget) + CALLS.fetch_add(1, Ordering::Relaxed) % 2 }
    }
}

#[test]
fn every_refusal_is_among_the_cases() {
    for name in ["chunks", "packets"] {
        let (text, same) = run(RIGHT, name);
        assert!(same, "{text}");
        for what in ["many requests", "many replies", "a request over", "a reply over", "different counts"] {
            assert!(text.contains(what), "{name}: {what}");
        }
    }
    let (text, _) = run(RIGHT, "chunks");
    assert!(text.contains("room: one byte short") && text.contains("room: none"), "{text}");
}

#[test]
fn wrong_groups_are_found() {
    for (wrong, place) in
        [(Library { chunks: hasty, ..RIGHT }, "byte 0 of"), (Library { chunks: behind, ..RIGHT }, "byte ")]
    {
        let (text, same) = run(wrong, "chunks");
        assert!(!same && text.contains(place), "{text}");
    }
}

#[test]
fn wrong_counts_are_found() {
    for wrong in [roomy, crossed, fickle] {
        let (text, same) = run(Library { packets: wrong, ..RIGHT }, "packets");
        assert!(!same && text.contains("returned "), "{text}");
    }
}

/// Tables of so many entries, with one entry at a position of the first and one at a position of the second.
fn refusal_of(counts: (usize, usize), first: Option<usize>, second: Option<usize>) -> Option<SentBack> {
    let table = |count: usize, large: Option<usize>| {
        let mut entries = vec![LARGEST; count];
        if let Some(position) = large {
            entries[position] = LARGEST + 1;
        }
        table_bytes(&entries)
    };
    let fields = [table(counts.0, first), table(counts.1, second), vec![0, 64]];
    refusal(&fields).map(|refusal| refusal.sent_back)
}

#[test]
fn the_tables_are_looked_at_in_order() {
    assert_eq!(refusal_of((MOST, MOST), None, None), None);
    assert_eq!(refusal_of((MOST + 1, MOST + 1), None, None), Some((5, 256)));
    assert_eq!(refusal_of((MOST + 1, 3), Some(0), Some(0)), Some((5, 256)));
    assert_eq!(refusal_of((3, MOST + 1), Some(2), Some(0)), Some((5, 2)));
    assert_eq!(refusal_of((3, MOST + 1), None, Some(0)), Some((5, 256)));
    assert_eq!(refusal_of((3, 4), Some(1), Some(0)), Some((5, 1)));
    assert_eq!(refusal_of((3, 4), None, Some(3)), Some((5, 3)));
    assert_eq!(refusal_of((3, 4), None, None), Some((11, 3)));
    assert_eq!(refusal_of((4, 0), None, None), Some((11, 0)));
}
