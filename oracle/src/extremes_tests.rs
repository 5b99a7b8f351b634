//! The cases at the limits: each limit has both of its sides, and what is sent back by hand is what the document's table
//! gives.

use std::collections::BTreeSet;

use super::of;
use crate::all::SHARES;
use crate::compare;
use crate::library::CALLS;
use crate::plan::{self, PlannedRead};
use crate::value;

#[test]
fn what_is_over_a_limit_is_refused_as_by_hand_and_nothing_else_is() {
    for (name, _) in SHARES {
        let call = compare::named(name).expect("a call");
        for case in of(name) {
            let worked_out = (call.refusal)(&case.fields).map(|refusal| refusal.sent_back);
            assert_eq!(worked_out, case.sent_back, "{name}: {}", case.what);
        }
    }
}

/// The numbers that the inputs of each call can be refused with.
#[test]
fn every_refusal_of_a_limit_is_among_them() {
    for (name, numbers) in [
        ("plan", &[1, 2, 3, 4, 5, 7, 8][..]),
        ("plan_chunks", &[1, 2, 3, 4, 5, 7, 8]),
        ("chunks", &[5, 11]),
        ("packets", &[5, 11]),
        ("dig", &[1, 2, 3, 4, 5, 10]),
        ("sort", &[1, 2, 3, 4, 5, 8, 10, 11]),
    ] {
        let seen: BTreeSet<u8> = of(name).iter().filter_map(|case| case.sent_back).map(|(number, _)| number).collect();
        assert_eq!(seen, numbers.iter().copied().collect(), "{name}");
    }
}

/// The limits that the document names, by the words with which the cases are named.
#[test]
fn every_limit_of_the_document_is_among_them() {
    let catalogs = [
        "65,536 bytes",
        "1,024 tags",
        "128 types",
        "256 members",
        "three dimensions",
        "a dimension of 1,000,000",
        "name of 128 bytes",
        "16 types deep",
    ];
    let lists = ["16,384 bytes", "256 no-group names", "64 together names", "256 tags", "of 136 bytes", "A[1000000]"];
    let plans = ["256 reads", "256 members", "64 keys", "of 136 bytes", "A[1000001]", "A{1000001}"];
    let budgets = ["budget 0", "budget 65,535"];
    let values = ["65,536 bytes", "40 levels", "a name of 128 bytes"];
    for (name, limits) in [
        ("plan", [&catalogs[..], &lists, &budgets].concat()),
        ("plan_chunks", [&catalogs[..], &plans, &budgets].concat()),
        ("chunks", [&["256 entries", "1099511627776"][..], &budgets].concat()),
        ("packets", [&["256 entries", "1099511627777"][..], &budgets].concat()),
        ("dig", [&values[..], &["64 keys", "a key text of 128 bytes"]].concat()),
        ("sort", [&values[..], &plans, &["256 results for 256 reads", "of more than 65,536 bytes"]].concat()),
    ] {
        let cases = of(name);
        for limit in limits {
            assert!(cases.iter().any(|case| case.what.contains(limit)), "{name}: {limit}");
        }
    }
}

#[test]
fn calls_for_tests_have_none() {
    for call in CALLS.iter().filter(|call| SHARES.iter().all(|(name, _)| *name != call.name)) {
        assert!(of(call.name).is_empty());
    }
}

/// The reads that the Rust plans for a case of `plan`.
fn planned(what: &str) -> Vec<PlannedRead> {
    let case = of("plan").into_iter().find(|case| case.what == what && case.sent_back.is_none());
    let fields = case.unwrap_or_else(|| panic!("no case {what}")).fields;
    plan::read(&plan::answer(&fields[0], &fields[1]).expect("an accepted case is planned")).expect("a plan")
}

#[test]
fn what_is_at_a_limit_is_used() {
    let sizes = |what: &str| planned(what).iter().map(|read| read.members.len()).collect::<Vec<_>>();
    assert_eq!(sizes("256 elements of one array"), [256]);
    assert_eq!(sizes("256 members, all listed"), [256]);
    assert_eq!(sizes("1,024 tags, 256 of them listed").len(), 256);
    assert_eq!(sizes("128 types, a struct of each listed"), [2; 128]);
    assert_eq!(sizes("16 types deep, the innermost listed"), [16]);
    assert_eq!(sizes("an element 1,000,000 that runs"), [2]);
    assert_eq!(planned("64 together names, the last in use")[0].name, "Motor");
    assert_eq!(planned("256 no-group names, the last in use")[0].name, "Motor.Speed");
}

/// Under 40 levels some path leads to the innermost value, and the longest index and name to theirs.
#[test]
fn paths_lead_to_what_is_at_a_limit() {
    for (limit, place) in [
        ("39 levels of arrays and a leaf", 274),
        ("39 levels of structs and a leaf", 352),
        ("20 structs, 19 arrays and a leaf", 314),
        ("13,105 items in 65,536 bytes", 65_528),
        ("a name of 128 bytes", 137),
    ] {
        let cases = of("dig").into_iter().filter(|case| case.what.starts_with(limit) && case.sent_back.is_none());
        let cuts = cases.map(|case| value::dig(&case.fields[0], &case.fields[1]).expect("an accepted value is cut"));
        assert!(cuts.into_iter().any(|cut| cut == u64::to_be_bytes(place)), "{limit}");
    }
}
