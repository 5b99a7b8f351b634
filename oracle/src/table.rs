//! Counts of features over generated cases.

use std::collections::BTreeMap;

use crate::kinds::Kind;
use crate::random::Random;

/// The number of cases that show each feature, as lines of a table.
pub fn table(kind: &Kind, count: usize, seed: u64) -> Result<Vec<String>, String> {
    let mut random = Random::named(seed, kind.name);
    let mut counts = BTreeMap::new();
    for _ in 0..count {
        let case = (kind.generate)(&mut random);
        tally(&mut counts, (kind.features)(&case, &(kind.answer)(&case)?).0);
    }
    Ok(lines(kind.name, count, &counts))
}

pub fn tally(counts: &mut BTreeMap<&'static str, usize>, features: Vec<&'static str>) {
    for feature in features {
        *counts.entry(feature).or_default() += 1;
    }
}

pub fn lines(name: &str, count: usize, counts: &BTreeMap<&'static str, usize>) -> Vec<String> {
    let head = ["| feature | cases |".to_owned(), "|---|---|".to_owned(), format!("| all cases of {name} | {count} |")];
    let rows = counts.iter().map(|(feature, n)| format!("| {feature} | {n} |"));
    head.into_iter().chain(rows).collect()
}
