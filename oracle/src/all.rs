//! All calls of users in one comparison: cases from a seed, cases at every limit and cases by hand, one call after the
//! other, with one table at the end.

use std::collections::BTreeSet;

use crate::compare::{self, Found, GENERATED};
use crate::library::{Call, Library};
use crate::{by_hand, extremes};

/// The calls, and how many of a hundred generated cases each gets. What is left over goes to the first.
pub const SHARES: &[(&str, usize)] =
    &[("plan", 30), ("plan_chunks", 20), ("chunks", 10), ("packets", 10), ("dig", 15), ("sort", 15)];

/// How often progress is told for a call.
const STEPS: usize = 10;

const AT: &str = "extremes at a limit";
const OVER: &str = "extremes over a limit";
const TAKEN: &str = "by hand, to be accepted";
const REFUSED: &str = "by hand, to be refused";

const CAUSES: &[&str] = &[
    "a file over its limit",
    "the version",
    "a field past the end, or bytes over",
    "a byte that is not allowed",
    "a count, length, dimension or size over its limit",
    "names alike",
    "types nested too deep",
    "digits too large",
    "the output too short",
    "values too deep",
    "counts that differ",
];

/// The table and the differences; false if there are any. `progress` gets a line now and then.
pub fn all(
    library: &Library,
    count: usize,
    seed: u64,
    progress: &mut dyn FnMut(String),
) -> Result<(Vec<String>, bool), String> {
    let mut columns = Vec::new();
    for (name, cases) in split(count) {
        let call = compare::named(name)?;
        let found = one(library, call, cases, seed, progress)?;
        columns.push((call, found));
    }
    let mut lines = table(&columns);
    let differences: usize = columns.iter().map(|(_, found)| found.differences()).sum();
    let cases: usize = columns.iter().map(|(_, found)| put(found)).sum();
    lines.push(format!("{differences} differences in {cases} cases"));
    for (call, found) in &columns {
        lines.extend(found.told(library, call)?);
    }
    Ok((lines, differences == 0))
}

/// How many generated cases each call gets of these.
pub fn split(count: usize) -> Vec<(&'static str, usize)> {
    let mut parts: Vec<_> = SHARES.iter().map(|(name, share)| (*name, count / 100 * share)).collect();
    parts[0].1 += count - parts.iter().map(|(_, cases)| cases).sum::<usize>();
    parts
}

fn one(
    library: &Library,
    call: &Call,
    count: usize,
    seed: u64,
    progress: &mut dyn FnMut(String),
) -> Result<Found, String> {
    let mut found = Found::default();
    found.fixed(library, call, extremes::of(call.name), [AT, OVER])?;
    found.fixed(library, call, by_hand::of(call.name)?, [TAKEN, REFUSED])?;
    progress(format!(
        "{}: {} cases at limits and by hand, {} differences",
        call.name,
        put(&found),
        found.differences()
    ));
    let step = (count / STEPS).max(1);
    found.generated(library, call, count, seed, &mut |done, differences| {
        if done % step == 0 || done == count {
            progress(format!("{}: {done} of {count} cases, {differences} differences", call.name));
        }
    })?;
    Ok(found)
}

fn put(found: &Found) -> usize {
    found.cases.values().sum()
}

/// A row for each count, then one for each feature of generated cases; a column for each call and one for all.
fn table(columns: &[(&Call, Found)]) -> Vec<String> {
    let names: Vec<_> = columns.iter().map(|(call, _)| call.name).collect();
    let mut lines = vec![format!("| | {} | all |", names.join(" | "))];
    lines.push(format!("|---|{}", "---|".repeat(names.len() + 1)));
    let row = |name: &str, number: &dyn Fn(&Found) -> usize, none: &str| {
        let numbers: Vec<usize> = columns.iter().map(|(_, found)| number(found)).collect();
        let cell = |n: &usize| if *n == 0 { none.to_owned() } else { n.to_string() };
        let cells: Vec<String> = numbers.iter().chain([&numbers.iter().sum()]).map(cell).collect();
        format!("| {name} | {} |", cells.join(" | "))
    };
    lines.extend(counts().iter().map(|(name, number)| row(name, number, "0")));
    let features: BTreeSet<&str> = columns.iter().flat_map(|(_, found)| found.features.keys().copied()).collect();
    for feature in features {
        lines.push(row(feature, &|found| found.features.get(feature).copied().unwrap_or(0), ""));
    }
    lines
}

type Number = Box<dyn Fn(&Found) -> usize>;

/// The counts: what each is called, and how it is taken.
fn counts() -> Vec<(String, Number)> {
    let mut counts: Vec<(String, Number)> = vec![("cases".to_owned(), Box::new(put))];
    for from in [GENERATED, AT, OVER, TAKEN, REFUSED] {
        counts.push((from.to_owned(), Box::new(move |found| found.cases.get(from).copied().unwrap_or(0))));
    }
    counts.push(("accepted and equal".to_owned(), Box::new(|found| found.accepted)));
    counts.push(("damaged, accepted and equal".to_owned(), Box::new(|found| found.spoilt)));
    for (number, cause) in (1..).zip(CAUSES) {
        let refused = move |found: &Found| found.refused.get(&number).copied().unwrap_or(0);
        counts.push((format!("refused, {number}: {cause}"), Box::new(refused)));
    }
    counts.push(("differences".to_owned(), Box::new(Found::differences)));
    counts
}

#[cfg(test)]
#[path = "all_tests.rs"]
mod tests;
