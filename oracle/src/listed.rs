//! The library's call over a catalog and a list, which makes a plan: how its cases are damaged and what is refused.

use std::sync::LazyLock;

use crate::damaged::{Case, catalogs, lists};
use crate::library::Refusal;
use crate::random::Random;
use crate::{planned, refusals};

static CATALOGS: LazyLock<Vec<Case>> = LazyLock::new(catalogs::all);
static LISTS: LazyLock<Vec<Case>> = LazyLock::new(lists::all);

/// The catalog is looked at first. A place is one of the file that is refused.
pub fn refusal(fields: &[Vec<u8>]) -> Option<Refusal> {
    let causes = ["refused: the catalog", "refused: the list", "refused: the catalog, the list being bad too"];
    Refusal::of_two(refusals::catalog(&fields[0]), refusals::list(&fields[1]), causes)
}

/// Damages the catalog, the list or both; at times one of them becomes a file by hand first, which may be an accepted one
/// that is at a limit.
pub fn spoil(random: &mut Random, fields: &mut [Vec<u8>]) {
    match random.below(10) {
        0 => fields[0] = random.pick(&CATALOGS).file.clone(),
        1 | 2 => fields[1] = random.pick(&LISTS).file.clone(),
        _ => return planned::damage(random, fields),
    }
    if random.chance(10) {
        planned::damage(random, fields);
    }
}

#[cfg(test)]
#[path = "listed_tests.rs"]
pub(crate) mod tests;
