//! The library's calls over two size tables and a budget: how they are made, and what is refused of the tables before
//! an output is looked at. The Rust knows no refusals; these are the port's document's, written down by hand.

use crate::guard::Lent;
use crate::kinds;
use crate::library::{Refusal, Returned};
use crate::random::Random;

/// A call that writes its answer: each table and the output a pointer and a length, in entries and in bytes.
pub type ChunksCall = unsafe extern "C" fn(*const u64, usize, *const u64, usize, u16, *mut u8, usize) -> u64;

/// A call that returns its answer.
pub type PacketsCall = unsafe extern "C" fn(*const u64, usize, *const u64, usize, u16) -> u64;

/// The most entries of a table, and the largest one.
pub const MOST: usize = 256;
pub const LARGEST: u64 = 1 << 40;

/// What stands beside a lent table.
const BESIDE: u64 = 0xd7d7_d7d7_d7d7_d7d7;

pub fn chunks(function: ChunksCall, fields: &[Vec<u8>], out: &mut Lent<u8>) -> Returned {
    tables(fields, |t, u, budget| {
        // The pointers and lengths are those of three live vectors that nothing else holds.
        unsafe { function(t.pointer(), t.len(), u.pointer(), u.len(), budget, out.pointer_mut(), out.len()) }
    })
}

pub fn packets(function: PacketsCall, fields: &[Vec<u8>]) -> Returned {
    tables(fields, |t, u, budget| {
        // The pointers and lengths are those of two live vectors that nothing else holds.
        unsafe { function(t.pointer(), t.len(), u.pointer(), u.len(), budget) }
    })
}

/// Lends both tables; an error says that one of them was changed.
fn tables(fields: &[Vec<u8>], call: impl FnOnce(&Lent<u64>, &Lent<u64>, u16) -> u64) -> Returned {
    let requests = Lent::new(&entries(&fields[0]), BESIDE);
    let replies = Lent::new(&entries(&fields[1]), BESIDE);
    let returned = call(&requests, &replies, kinds::budget(&fields[2])?);
    match requests.untouched() && replies.untouched() {
        true => Ok(returned),
        false => Err("a table or what stands beside it was changed".to_owned()),
    }
}

/// The entries of a table, accepted or not.
fn entries(field: &[u8]) -> Vec<u64> {
    field.chunks(8).map(|bytes| bytes.iter().fold(0, |n, b| n << 8 | u64::from(*b))).collect()
}

/// The requests are looked at first, then the replies, then whether they are equally many.
pub fn refusal(fields: &[Vec<u8>]) -> Option<Refusal> {
    let (requests, replies) = (entries(&fields[0]), entries(&fields[1]));
    let differ = Refusal {
        sent_back: (11, requests.len().min(replies.len()) as u64),
        cause: "refused: tables of different counts",
    };
    let first = table(&requests, "refused: too many requests", "refused: a request over 2^40");
    let second = || table(&replies, "refused: too many replies", "refused: a reply over 2^40");
    first.or_else(second).or((requests.len() != replies.len()).then_some(differ))
}

/// A count over the limit comes before any entry.
fn table(entries: &[u64], many: &'static str, large: &'static str) -> Option<Refusal> {
    if entries.len() > MOST {
        return Some(Refusal { sent_back: (5, MOST as u64), cause: many });
    }
    let position = entries.iter().position(|entry| *entry > LARGEST)?;
    Some(Refusal { sent_back: (5, position as u64), cause: large })
}

/// One fault or two, at times none but an entry or a count just at its limit.
pub fn spoil(random: &mut Random, fields: &mut [Vec<u8>]) {
    for _ in 0..random.within(1, 2) {
        let place = random.below(2);
        match random.below(3) {
            0 => lengthen(random, fields, place),
            1 => enlarge(random, &mut fields[place]),
            _ => shorten(random, &mut fields[place]),
        }
    }
}

/// Makes one table, or both of them, as long as allowed or longer.
fn lengthen(random: &mut Random, fields: &mut [Vec<u8>], place: usize) {
    let count = *random.pick(&[MOST, MOST, MOST + 1, MOST + 1, 2 * MOST, 1000]);
    let other = if random.chance(50) { 1 - place } else { place };
    for at in [place, other] {
        while fields[at].len() < 8 * count {
            let entry = random.draw() % 3000;
            fields[at].extend(entry.to_be_bytes());
        }
    }
}

fn shorten(random: &mut Random, field: &mut Vec<u8>) {
    let count = field.len() / 8;
    field.truncate(8 * random.below(count + 1));
}

/// Puts a large entry somewhere into a table, the first or the last place at times.
fn enlarge(random: &mut Random, field: &mut [u8]) {
    let count = field.len() / 8;
    if count == 0 {
        return;
    }
    let position = match random.below(4) {
        0 => 0,
        1 => count - 1,
        _ => random.below(count),
    };
    let entry = *random.pick(&[LARGEST, LARGEST + 1, LARGEST + 1, 1 << 41, 1 << 56, 1 << 63, u64::MAX]);
    field[8 * position..8 * position + 8].copy_from_slice(&entry.to_be_bytes());
}

#[cfg(test)]
#[path = "packed_tests.rs"]
pub(crate) mod tests;
