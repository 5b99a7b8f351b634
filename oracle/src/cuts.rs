//! The library's calls over a value with a path and over a plan with results: how their cases are made and damaged, and
//! what is refused.

use crate::generate::{plans, values};
use crate::kinds::{self, Fields};
use crate::library::Refusal;
use crate::plan::{self, PlannedRead, Step};
use crate::random::Random;
use crate::results::{self, Outcome};
use crate::value::{self, LEVELS, LIMIT, Plain};
use crate::{planned, refusals};

/// The value is looked at first. A place is one of the input that is refused.
pub fn dig_refusal(fields: &[Vec<u8>]) -> Option<Refusal> {
    let causes = ["refused: the value", "refused: the path", "refused: the value, the path being bad too"];
    Refusal::of_two(refusals::value(&fields[0]), refusals::path(&fields[1]), causes)
}

/// The plan is looked at first, then the results, then whether they are equally many.
pub fn sort_refusal(fields: &[Vec<u8>]) -> Option<Refusal> {
    let causes = ["refused: the plan", "refused: the results", "refused: the plan, the results being bad too"];
    let refused = Refusal::of_two(refusals::plan(&fields[0]), refusals::results(&fields[1]), causes);
    refused.or_else(|| {
        let [reads, results] = [0, 1].map(|file: usize| u16::from_be_bytes([fields[file][1], fields[file][2]]));
        let cause = "refused: results and reads of different counts";
        (reads != results).then(|| Refusal { sent_back: (11, reads.min(results).into()), cause })
    })
}

/// A value with a path as the stored cases have them, or a value of many parts.
pub fn generate_dig(random: &mut Random) -> Fields {
    if random.chance(90) {
        return kinds::value_and_path(random);
    }
    let value = wide(random);
    let mut path = values::path(random, &value);
    if random.chance(10) && path.len() < 64 {
        path.resize(random.within(path.len() + 1, 64), Step::Index(0));
    }
    vec![value::write(&value), plan::write_path(&path)]
}

/// A plan with results as the stored cases have them, at times with as many reads as there may be.
pub fn generate_sort(random: &mut Random) -> Fields {
    match random.below(200) {
        0 => many(random),
        _ => kinds::plan_and_results(random),
    }
}

/// An array or a struct of up to 300 values, which may be arrays and structs themselves.
fn wide(random: &mut Random) -> Plain {
    let count = random.weighted(&[(3, 20), (2, 100), (1, 300)]);
    let values: Vec<_> = (0..random.below(count + 1)).map(|_| values::any(random, 3)).collect();
    let names = |n: usize| format!("{}{}", ["m", "M", "Member_"][n % 3], n / 2);
    match random.chance(50) {
        true => Plain::Array(values),
        false => Plain::Struct(values.into_iter().enumerate().map(|(n, v)| (names(n), v)).collect()),
    }
}

/// Up to 256 reads of one member or two each, of a few names.
fn many(random: &mut Random) -> Fields {
    let count = if random.chance(30) { 256 } else { random.within(100, 256) };
    let (mut reads, mut outcomes) = (Vec::new(), Vec::new());
    for _ in 0..count {
        let value = values::any(random, 2);
        let path = |random: &mut Random| random.chance(80).then(|| values::path(random, &value));
        let members = (0..random.within(1, 2)).map(|_| ("t".to_owned(), path(random))).collect();
        let name = format!("R{}", random.below(2 * count));
        reads.push(PlannedRead { name, members });
        outcomes.push(plans::outcome(random, value));
    }
    vec![plan::write(&reads), results::write(&outcomes)]
}

/// Damages the value, the path or both; at times the value becomes one at a limit or over it first.
pub fn spoil_dig(random: &mut Random, fields: &mut [Vec<u8>]) {
    if random.chance(25) {
        let value = extreme(random);
        fields[0] = value::write(&value);
        if random.chance(80) {
            fields[1] = plan::write_path(&values::path(random, &value));
        }
        if random.chance(70) {
            return;
        }
    }
    planned::damage(random, fields);
}

/// Damages the plan, the results or both, or leaves them of different counts; at times the results become one value at
/// a limit or over it first.
pub fn spoil_sort(random: &mut Random, fields: &mut [Vec<u8>]) {
    match random.below(10) {
        0 => drop_read(fields),
        1 => add_results(random, &mut fields[1]),
        2 | 3 => at_a_limit(random, fields),
        _ => return planned::damage(random, fields),
    }
    if random.chance(20) {
        planned::damage(random, fields);
    }
}

fn drop_read(fields: &mut [Vec<u8>]) {
    let mut reads = plan::read(&fields[0]).unwrap_or_default();
    reads.pop();
    fields[0] = plan::write(&reads);
}

/// Puts results without a value behind the others.
fn add_results(random: &mut Random, file: &mut Vec<u8>) {
    let count = usize::from(file[1]) << 8 | usize::from(file[2]);
    let more = *random.pick(&[1, 1, 2, 244, 257, 10_000]);
    file[1..3].copy_from_slice(&((count + more) as u16).to_be_bytes());
    file.extend((0..more).map(|_| 1 + random.below(2) as u8));
}

/// One result, and mostly the first read alone, or one made for it.
fn at_a_limit(random: &mut Random, fields: &mut [Vec<u8>]) {
    let value = extreme(random);
    let mut reads = plan::read(&fields[0]).unwrap_or_default();
    if random.chance(90) {
        reads.truncate(1);
    }
    if reads.is_empty() || random.chance(50) {
        let members = (0..3).map(|n| (format!("t{n}"), Some(values::path(random, &value)))).collect();
        reads = vec![PlannedRead { name: "Motor".to_owned(), members }];
    }
    fields[0] = plan::write(&reads);
    fields[1] = results::write(&[Outcome::Value(value)]);
}

/// A value of about as many levels or bytes as a file may have, or with two names alike.
fn extreme(random: &mut Random) -> Plain {
    match random.below(4) {
        0 | 1 => {
            let levels = *random.pick(&[LEVELS - 1, LEVELS, LEVELS + 1, LEVELS + 1, LEVELS + 2, 60]);
            values::chain(random, levels).0
        }
        2 => twins(random),
        _ => long(random),
    }
}

/// Two members of one name, or of names that only look alike, somewhere in a value.
fn twins(random: &mut Random) -> Plain {
    let name = *random.pick(&["Speed", "a", ""]);
    let second = if random.chance(70) { name.to_owned() } else { random.respell(name) };
    let mut names = vec![name.to_owned(), second];
    for n in 0..random.below(6) {
        names.insert(random.below(names.len() + 1), format!("m{n}"));
    }
    let mut value = Plain::Struct(names.into_iter().map(|name| (name, values::any(random, 2))).collect());
    for _ in 0..random.below(4) {
        let beside = values::any(random, 2);
        value = match random.below(3) {
            0 => Plain::Array(vec![beside, value]),
            1 => Plain::Array(vec![value, beside]),
            _ => Plain::Struct(vec![("x".to_owned(), beside), ("y".to_owned(), value)]),
        };
    }
    value
}

/// An array with a last item that brings a value file to its limit, or some bytes over or under it.
fn long(random: &mut Random) -> Plain {
    let mut items: Vec<_> = (0..random.below(5)).map(|_| values::any(random, 3)).collect();
    items.push(Plain::Leaf(vec![]));
    let short = LIMIT - value::write(&Plain::Array(items.clone())).len();
    items.pop();
    items.push(Plain::Leaf(vec![7; short + random.below(7) - 4]));
    Plain::Array(items)
}

#[cfg(test)]
#[path = "cuts_tests.rs"]
pub(crate) mod tests;
