//! The library's call over a catalog, a plan and a budget: how its cases are made and damaged, how it is called, and
//! what is refused.

use crate::catalog::Catalog;
use crate::generate::{catalogs, names, plans, tables, values};
use crate::guard::Lent;
use crate::kinds::{self, Fields};
use crate::library::{Refusal, Returned};
use crate::plan::{self, Member, PlannedRead};
use crate::random::Random;
use crate::refusals;

/// A call that writes its answer: both files and the output a pointer and a length.
pub type PlannedCall = unsafe extern "C" fn(*const u8, usize, *const u8, usize, u16, *mut u8, usize) -> u64;

pub fn plan_chunks(function: PlannedCall, fields: &[Vec<u8>], out: &mut Lent<u8>) -> Returned {
    let catalog = Lent::new(&fields[0], 0xd7);
    let plan = Lent::new(&fields[1], 0xd7);
    let (c, p, budget) = (catalog.pointer(), plan.pointer(), kinds::budget(&fields[2])?);
    // The pointers and lengths are those of three live vectors that nothing else holds.
    let returned = unsafe { function(c, catalog.len(), p, plan.len(), budget, out.pointer_mut(), out.len()) };
    match catalog.untouched() && plan.untouched() {
        true => Ok(returned),
        false => Err("a file or what stands beside it was changed".to_owned()),
    }
}

/// The catalog is looked at first. A place is one of the file that is refused.
pub fn refusal(fields: &[Vec<u8>]) -> Option<Refusal> {
    let causes = ["refused: the catalog", "refused: the plan", "refused: the catalog, the plan being bad too"];
    Refusal::of_two(refusals::catalog(&fields[0]), refusals::plan(&fields[1]), causes)
}

/// A catalog with a plan by the Rust, at times with further reads, or with a plan that is made up; with a budget as
/// size tables get, or one that a few reads fill.
pub fn generate(random: &mut Random) -> Fields {
    let (catalog, reads) = match random.chance(50) {
        true => plans::for_catalog(random),
        false => made_up(random),
    };
    let budget = match random.chance(50) {
        true => tables::budget(random),
        false => random.within(60, 400) as u16,
    };
    vec![catalog.write(), plan::write(&reads), budget.to_be_bytes().to_vec()]
}

/// Reads of any names, as many as there may be at times; a plan too long keeps the reads that fit.
fn made_up(random: &mut Random) -> (Catalog, Vec<PlannedRead>) {
    let catalog = match random.below(100) {
        0 => catalogs::large(random),
        _ => catalogs::catalog(random),
    };
    let most = random.weighted(&[(40, 12), (8, 40), (1, 257)]);
    let count = if most > 256 && random.chance(50) { 256 } else { random.below(most) };
    let mut reads: Vec<_> = (0..count).map(|_| read(random, &catalog)).collect();
    while plan::read(&plan::write(&reads)).is_err() {
        reads.pop();
    }
    (catalog, reads)
}

/// A read of the catalog, or one of any name that a plan may have.
fn read(random: &mut Random, catalog: &Catalog) -> PlannedRead {
    let name = match random.chance(25) {
        true => names::name(random).into_iter().map(char::from).collect(),
        false => plans::odd_name(random, catalog),
    };
    let members = (0..random.weighted(&[(4, 0), (3, 1), (1, 3)])).map(|_| member(random)).collect();
    let read = PlannedRead { name, members };
    match plan::read(&plan::write(std::slice::from_ref(&read))) {
        Ok(_) => read,
        Err(_) => PlannedRead { name: plans::odd_name(random, catalog), ..read },
    }
}

fn member(random: &mut Random) -> Member {
    let value = values::any(random, 3);
    let path = random.chance(60).then(|| values::path(random, &value));
    (random.pick(&["t", "Motor.Speed", "", "Trend[3]"]).to_string(), path)
}

/// The first input, the second or both with a byte changed, cut short, with a byte more, or two of these.
pub fn damage(random: &mut Random, fields: &mut [Vec<u8>]) {
    for _ in 0..random.weighted(&[(3, 1), (1, 2)]) {
        let file = &mut fields[random.below(2)];
        let place = random.below(file.len() + 1);
        match random.below(8) {
            0 => file.truncate(place),
            1 => file.push(random.draw() as u8),
            2 => file.insert(place, random.draw() as u8),
            3 | 4 => change(file, place, |byte| byte ^ 1 << random.below(8)),
            5 => change(file, place, |byte| byte.wrapping_add(1)),
            6 => change(file, place, |byte| byte.wrapping_sub(1)),
            _ => change(file, place, |_| random.draw() as u8),
        }
    }
}

/// Changes a byte; past the end, the last one.
fn change(file: &mut [u8], place: usize, to: impl FnOnce(u8) -> u8) {
    if let Some(last) = file.len().checked_sub(1) {
        let byte = &mut file[place.min(last)];
        *byte = to(*byte);
    }
}

#[cfg(test)]
#[path = "planned_tests.rs"]
pub(crate) mod tests;
