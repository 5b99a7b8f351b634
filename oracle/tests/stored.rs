//! The stored cases show whatever generated cases show.

use std::collections::BTreeMap;

use oracle::kinds::KINDS;
use oracle::random::Random;
use oracle::{store, table};

#[test]
fn every_feature_is_among_the_stored_cases() {
    for kind in KINDS {
        let mut random = Random::named(1, kind.name);
        let generated = (0..3000).map(|_| (kind.generate)(&mut random)).collect();
        let stored = store::choose(kind, 1).expect("the cases are accepted");
        let (generated, stored) = (features(kind, generated), features(kind, stored));
        for feature in generated.keys() {
            assert!(stored.contains_key(feature), "{}: {feature}", kind.name);
        }
    }
}

fn features(kind: &oracle::kinds::Kind, cases: Vec<oracle::kinds::Fields>) -> BTreeMap<&'static str, usize> {
    let mut counts = BTreeMap::new();
    for case in cases {
        let answer = (kind.answer)(&case).expect("a case has an answer");
        table::tally(&mut counts, (kind.features)(&case, &answer).0);
    }
    counts
}
