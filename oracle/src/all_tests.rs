//! The comparison of all calls, held against the oracle itself and against libraries that do something wrong at a limit
//! only.

use super::{CAUSES, SHARES, all, split};
use crate::compare::tests::RIGHT;
use crate::cuts::tests::dig;
use crate::library::Library;
use crate::packed::tests::{chunks, packets};
use crate::planned::tests::plan_chunks;
use crate::signatures::{chunks_calls, packets_calls, planned_calls};

fn run(library: Library, count: usize) -> (String, bool, Vec<String>) {
    let mut told = Vec::new();
    let (lines, same) = all(&library, count, 5, &mut |line| told.push(line)).expect("the comparison runs");
    (lines.join("\n"), same, told)
}

/// The numbers of a row, the last being that of all calls.
fn row(text: &str, name: &str) -> Vec<usize> {
    let start = format!("| {name} | ");
    let line = text.lines().find(|line| line.starts_with(&start)).unwrap_or_else(|| panic!("no row {name}"));
    let cells = line.trim_end_matches('|').split('|').skip(2);
    cells.map(|cell| cell.trim().parse().unwrap_or(0)).collect()
}

#[test]
fn the_oracle_equals_itself_and_the_counts_add_up() {
    let (text, same, told) = run(RIGHT, 3000);
    assert!(same && text.contains("\n0 differences in "), "{text}");
    assert_eq!(row(&text, "generated"), [900, 600, 300, 300, 450, 450, 3000]);
    assert_eq!(row(&text, "differences"), [0; 7]);
    let refused: Vec<_> = (1..=11).map(|number| format!("| refused, {number}: ")).collect();
    let named = |line: &&str| refused.iter().any(|start| line.starts_with(start));
    let names: Vec<_> = text.lines().filter(named).map(|line| line.split('|').nth(1).unwrap_or("").trim()).collect();
    assert_eq!(names.len(), 11);
    for column in 0..7 {
        let refused: usize = names.iter().map(|name| row(&text, name)[column]).sum();
        assert_eq!(row(&text, "accepted and equal")[column] + refused, row(&text, "cases")[column]);
    }
    for name in
        ["extremes at a limit", "extremes over a limit", "by hand, to be accepted", "damaged, accepted and equal"]
    {
        assert!(row(&text, name).iter().all(|number| *number > 0), "{name}: {text}");
    }
    assert!(told.iter().any(|line| line.starts_with("plan: 900 of 900 cases")), "{told:?}");
}

/// Each call is refused with the numbers that its inputs and its output can get, and with no other.
#[test]
fn refusals_are_counted_by_number() {
    let (text, _, _) = run(RIGHT, 0);
    let numbers: [&[usize]; 6] = [
        &[1, 2, 3, 4, 5, 6, 7, 8, 9],
        &[1, 2, 3, 4, 5, 6, 7, 8, 9],
        &[5, 9, 11],
        &[5, 11],
        &[1, 2, 3, 4, 5, 6, 10],
        &[1, 2, 3, 4, 5, 6, 8, 9, 10, 11],
    ];
    for number in 1..=11 {
        let row = row(&text, &format!("refused, {number}: {}", CAUSES[number - 1]));
        for (column, numbers) in numbers.iter().enumerate() {
            assert_eq!(row[column] > 0, numbers.contains(&number), "{number} of {}", SHARES[column].0);
        }
    }
}

#[test]
fn cases_are_split_without_a_remainder() {
    for count in [0, 99, 100, 12_345, 1_000_000] {
        let parts = split(count);
        assert_eq!(parts.iter().map(|(_, cases)| cases).sum::<usize>(), count);
        assert!(parts[0].0 == "plan" && parts[0].1 * 5 >= count);
    }
    assert_eq!(SHARES.iter().map(|(_, share)| share).sum::<usize>(), 100);
}

/// Takes a value of 41 levels, by looking at it without its outermost array.
unsafe extern "C" fn deeper(v: *const u8, n: usize, p: *const u8, m: usize) -> u64 {
    match unsafe { dig(v, n, p, m) } {
        returned if returned >> 56 == 10 => 1,
        returned => returned,
    }
}

packets_calls! {
    /// Tells an entry too large by the number of entries.
    fn counted(t, n, u, m, budget) {
        match unsafe { packets(t, n, u, m, budget) } {
            returned if returned == 5 << 56 | 255 => returned + 1,
            returned => returned,
        }
    }
}

chunks_calls! {
    /// Writes a last byte past the room where one byte is missing.
    fn cramped(t, n, u, m, budget, out, room) {
        let returned = unsafe { chunks(t, n, u, m, budget, out, room) };
        if returned == 9 << 56 | (room as u64 + 1) {
            unsafe { *out.add(room) = 0 };
        }
        returned
    }
}

planned_calls! {
    /// Takes a plan of 257 reads as one of none.
    fn crowded(c, n, p, m, budget, out, room) {
        match unsafe { plan_chunks(c, n, p, m, budget, out, room) } {
            returned if returned == 5 << 56 | 1 => 11,
            returned => returned,
        }
    }
}

/// No case is generated here: what is found stands among the extremes or the cases by hand.
#[test]
fn mistakes_at_limits_are_found_without_generated_cases() {
    for (library, found) in [
        (Library { dig: deeper, ..RIGHT }, "dig differs at over 40 levels of arrays"),
        (Library { packets: counted, ..RIGHT }, "packets differs at request 255 of 1099511627777"),
        (Library { chunks: cramped, ..RIGHT }, "chunks differs at 256 entries, one byte short"),
        (Library { plan_chunks: crowded, ..RIGHT }, "plan_chunks differs at over 1,024 tags"),
    ] {
        let (text, same, _) = run(library, 0);
        assert!(!same && text.contains(found), "{found}: {text}");
        assert_eq!(row(&text, "generated"), [0; 7]);
    }
}
