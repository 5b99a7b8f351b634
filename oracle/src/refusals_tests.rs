//! The refusals that are worked out, held against those written down by hand and against the oracle's readers.

use super::SentBack;
use crate::catalog::Catalog;
use crate::damaged::{Case, catalogs, lists, plans, values};
use crate::library::{CALLS, Call};
use crate::list::List;
use crate::random::Random;
use crate::{kinds, plan, results, value};

fn held(cases: &[Case], worked_out: fn(&[u8]) -> Option<SentBack>) {
    for case in cases {
        let by_hand = (case.number != 0).then_some((case.number, case.returned));
        assert_eq!(worked_out(&case.file), by_hand, "{}", case.what);
    }
}

#[test]
fn every_file_by_hand_is_told_as_it_is_written_down() {
    held(&catalogs::all(), super::catalog);
    held(&lists::all(), super::list);
    held(&plans::all(), super::plan);
    held(&values::all(), super::value);
}

/// A value as the only result stands three bytes further on.
#[test]
fn the_values_by_hand_are_told_as_results_too() {
    for case in values::all().iter().filter(|case| case.file.first() == Some(&1) && case.file.len() < 65_534) {
        let file = [&[1, 0, 1, 0], &case.file[1..]].concat();
        let by_hand = (case.number != 0).then_some((case.number, case.returned + 3));
        assert_eq!(super::results(&file), by_hand, "{}", case.what);
    }
}

#[test]
fn paths_are_told_by_the_first_fault() {
    for (bytes, told) in [
        (&[][..], Some((3, 0))),
        (&[0], None),
        (&[0, 9], Some((3, 1))),
        (&[65], Some((5, 0))),
        (&[1, 3], Some((4, 1))),
        (&[1, 0, 2, b'a', 31], Some((4, 4))),
        (&[1, 0, 2, b'a'], Some((3, 2))),
        (&[2, 1, 0, 0, 0, 7, 2, 0, 0], Some((3, 7))),
        (&[2, 1, 0, 0, 0, 7, 2, 0, 0, 0, 1], None),
    ] {
        assert_eq!(super::path(bytes), told, "{bytes:?}");
    }
    assert_eq!(super::path(&[&[1, 0, 129][..], &[b'x'; 129]].concat()), Some((5, 2)));
}

/// Whether each input of a call is taken by the oracle's readers.
fn taken(call: &Call, fields: &[Vec<u8>]) -> bool {
    match call.name {
        "plan" => Catalog::read(&fields[0]).is_ok() && List::read(&fields[1]).is_ok(),
        "plan_chunks" => Catalog::read(&fields[0]).is_ok() && plan::read(&fields[1]).is_ok(),
        "dig" => value::read(&fields[0]).is_ok() && plan::read_path(&fields[1]).is_ok(),
        _ => {
            let count = |file: &[u8]| results::read(file).map(|results| results.len());
            plan::read(&fields[0]).is_ok_and(|reads| Ok(reads.len()) == count(&fields[1]))
        }
    }
}

#[test]
fn the_readers_take_what_is_not_refused_and_nothing_else() {
    let named = |name: &&Call| ["plan", "plan_chunks", "dig", "sort"].contains(&name.name);
    for call in CALLS.iter().filter(named) {
        let kind = kinds::named(call.kind).expect("a kind");
        let mut random = Random::named(3, call.name);
        for _ in 0..3000 {
            let mut fields = call.generate.unwrap_or(kind.generate)(&mut random);
            (call.spoil)(&mut random, &mut fields);
            let refused = (call.refusal)(&fields).is_some();
            assert_eq!(taken(call, &fields), !refused, "{}: {fields:02x?}", call.name);
        }
    }
}
