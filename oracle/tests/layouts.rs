//! Each file is written and read back, the sorted answer is what the hand says, and the sources are unchanged.

mod common;

use std::path::Path;

use common::chunks;
use oracle::catalog::Catalog;
use oracle::hand::values::{leaf, member, motor, read};
use oracle::kinds::{self, KINDS};
use oracle::list::List;
use oracle::plan::{self, Step};
use oracle::random::Random;
use oracle::results::{self, Outcome};
use oracle::value::{self, Plain};

#[test]
fn files_read_back_as_they_were_written() {
    let mut random = Random::new(7);
    let (plans, digs) = (kinds::named("plan").expect("plan"), kinds::named("dig").expect("dig"));
    for _ in 0..500 {
        let case = (plans.generate)(&mut random);
        assert_eq!(Catalog::read(&case[0]).expect("accepted").write(), case[0]);
        assert_eq!(List::read(&case[1]).expect("accepted").write(), case[1]);
        let answer = (plans.answer)(&case).expect("accepted");
        assert_eq!(plan::write(&plan::read(&answer).expect("accepted")), answer);
        let case = (digs.generate)(&mut random);
        assert_eq!(plan::write_path(&plan::read_path(&case[1]).expect("accepted")), case[1]);
        assert_eq!(value::write(&plain(&value::read(&case[0]).expect("accepted"))), case[0]);
    }
}

fn plain(value: &ciplink::Value) -> Plain {
    match value {
        ciplink::Value::Array(items) => Plain::Array(items.iter().map(plain).collect()),
        ciplink::Value::Struct(members) => {
            Plain::Struct(members.iter().map(|(name, v)| (name.clone(), plain(v))).collect())
        }
        ciplink::Value::Leaf(bytes) => Plain::Leaf(bytes.to_vec()),
        ciplink::Value::Text(bytes) => Plain::Text(bytes.to_vec()),
        other => panic!("{other:?} is in no file"),
    }
}

#[test]
fn every_call_answers_its_own_cases() {
    for kind in KINDS {
        let mut random = Random::named(3, kind.name);
        for _ in 0..200 {
            let case = (kind.generate)(&mut random);
            let answer = (kind.answer)(&case).unwrap_or_else(|e| panic!("{}: {e}", kind.name));
            (kind.features)(&case, &answer);
        }
    }
}

#[test]
fn damaged_files_are_refused_with_a_message() {
    let file = oracle::hand::catalogs::bench().write();
    assert!(Catalog::read(&file[..file.len() - 1]).is_err());
    assert!(Catalog::read(&[&file[..], &[0]].concat()).is_err());
    assert!(Catalog::read(&[]).is_err());
    assert!(List::read(&[1, 0]).is_err());
    let deep = (0..40).fold(leaf(1), |inner, _| Plain::Array(vec![inner]));
    assert!(value::read(&value::write(&deep)).is_err());
    let mut list = List { tags: vec!["A[01000000]".to_owned()], ..List::default() };
    assert!(List::read(&list.write()).is_ok());
    list.tags = vec!["A[1,1000001".to_owned()];
    assert!(List::read(&list.write()).is_err());
}

#[test]
fn a_cut_is_told_by_its_place() {
    let file = value::write(&motor());
    let place = |path: &[Step]| {
        let answer = value::dig(&file, &plan::write_path(path)).expect("accepted");
        answer.iter().fold(0, |n, b| n << 8 | usize::from(*b))
    };
    assert_eq!(place(&[]), 1);
    assert_eq!(place(&[member("speed")]), 14);
    assert_eq!(place(&[member("Speed")]), 29);
    assert_eq!(place(&[member("sPEED")]), 14);
    assert_eq!(place(&[member("Gone")]), 0);
    assert_eq!(place(&[Step::Index(0)]), 0);
    let item = place(&[member("DATA"), Step::First(1)]);
    assert_eq!(&file[item..item + 10], b"\x00\x00\x00\x07\x03\x00free");
}

/// The sorted answer of one value, one error and one of neither, worked out by hand.
#[test]
fn results_are_sorted_member_by_member() {
    let path = |name: &str| Some(vec![member(name)]);
    let reads = [
        read("M", vec![("a", path("x")), ("a", path("gone")), ("b", None), ("c", Some(vec![]))]),
        read("P", vec![("P", None)]),
        read("M", vec![("a", path("x"))]),
        read("M", vec![("d", path("gone"))]),
        read("N", vec![("e", None), ("f", path("x"))]),
        read("Q", vec![]),
    ];
    let value = Plain::Struct(vec![("x".to_owned(), leaf(7))]);
    let results = [
        Outcome::Value(value.clone()),
        Outcome::Error,
        Outcome::Error,
        Outcome::Value(value),
        Outcome::Neither,
        Outcome::Error,
    ];
    let answer = results::sort(&plan::write(&reads), &results::write(&results)).expect("accepted");
    // The first value's length field stands at 4 (version, count, status), its member's at 4 + 4 + 1 + 2 + 2.
    let entries = [&[0, 0, 0, 0, 13][..], &[1], &[2], &[0, 0, 0, 0, 4], &[2], &[1], &[1], &[2], &[1]].concat();
    let failed = [0, 4, 0, 0, 0, 2, 0, 4, 0, 5];
    assert_eq!(answer, [&[1, 0, 9][..], &entries, &failed].concat());
}

#[test]
fn a_lone_read_does_not_close_a_group() {
    assert_eq!(chunks(&[(10, 5), (10, 5000), (10, 6)], 100), (1 + 107, vec![vec![0, 2], vec![1]]));
    assert_eq!(chunks(&[(0, 0), (0, 9)], 0), (3 + 11, vec![vec![0], vec![1]]));
}

/// The compiled copies are the customer's files and one line each.
#[test]
fn the_sources_are_unchanged() {
    for name in ["planner", "plc"] {
        let source = std::fs::read_to_string(Path::new(env!("RUVANGIXO_SOURCE")).join(format!("{name}.rs")));
        let folder = Path::new(env!("CARGO_MANIFEST_DIR")).join("target/source");
        let copy = std::fs::read_to_string(folder.join(format!("{name}.rs"))).expect("a copy");
        let added = format!("#[path = \"../../src/reach/{name}.rs\"] pub mod reach;\n");
        assert_eq!(copy, source.expect("a source") + &added);
    }
}
