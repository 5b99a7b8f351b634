//! The damaged files, held against the oracle's own readers. These tell only whether a file is accepted; the numbers and
//! places are held against the refusals that the oracle works out, and compared by the replay.

use oracle::catalog::Catalog;
use oracle::damaged::{Case, catalogs, lists, plans, values};
use oracle::list::List;
use oracle::{plan, store, value};

fn told(cases: &[Case], accepts: impl Fn(&[u8]) -> bool) {
    for case in cases {
        assert_eq!(accepts(&case.file), case.number == 0, "{}", case.what);
    }
}

#[test]
fn the_readers_accept_those_without_a_refusal_and_no_other() {
    told(&catalogs::all(), |file| Catalog::read(file).is_ok());
    told(&lists::all(), |file| List::read(file).is_ok());
    told(&plans::all(), |file| plan::read(file).is_ok());
    told(&values::all(), |file| value::read(file).is_ok());
}

#[test]
fn no_case_stands_twice() {
    for cases in [catalogs::all(), lists::all(), plans::all(), values::all()] {
        for (position, case) in cases.iter().enumerate() {
            let earlier = cases[..position].iter().find(|c| c.file == case.file);
            assert!(earlier.is_none(), "{} and {}", case.what, earlier.map_or("", |c| &c.what));
        }
    }
}

#[test]
fn every_refusal_of_lists_plans_and_values_is_there() {
    let (digits, names) = ([0, 1, 2, 3, 4, 5, 8], [0, 1, 2, 3, 4, 5, 6, 10]);
    for (cases, numbers) in [(lists::all(), &digits[..]), (plans::all(), &digits), (values::all(), &names)] {
        for number in numbers {
            assert!(cases.iter().any(|case| case.number == *number), "{number}");
        }
        assert!(cases.iter().all(|case| numbers.contains(&case.number)));
    }
}

/// A refusal is told by a place in the file, or right behind it for a field that is not there; 1 by the limit.
#[test]
fn the_places_are_in_their_files() {
    for (cases, limit) in [(lists::all(), 16_384), (plans::all(), 65_536), (values::all(), 65_536)] {
        for case in cases {
            let size = case.file.len() as u64;
            let right = match case.number {
                1 => case.returned == limit && size > limit,
                3 => case.returned <= size,
                4 | 5 | 6 | 8 | 10 => case.returned < size,
                _ => case.returned == 0,
            };
            assert!(right, "{}", case.what);
        }
    }
}

#[test]
fn the_stored_lists_read_back() {
    let lists = store::lists(1).expect("the lists are accepted");
    assert_eq!(lists.len(), 120);
    for list in &lists {
        assert_eq!(&List::read(list).expect("an accepted list").write(), list);
    }
}

#[test]
fn the_stored_plans_read_back() {
    let plans = store::plans(1).expect("the plans are accepted");
    assert_eq!(plans.len(), 120);
    for file in &plans {
        assert_eq!(&plan::write(&plan::read(file).expect("an accepted plan")), file);
    }
}
