//! What the counting copy of planner.rs reports while it plans. Only tables of features and the choice of stored
//! cases come from here; no answer does.

use std::cell::RefCell;
use std::collections::BTreeSet;

thread_local! {
    static SEEN: RefCell<BTreeSet<&'static str>> = const { RefCell::new(BTreeSet::new()) };
}

/// Notes that something happened in the plan being made.
pub fn note(what: &'static str) {
    SEEN.with(|seen| seen.borrow_mut().insert(what));
}

/// What was noted since the last call.
pub fn take() -> BTreeSet<&'static str> {
    SEEN.with(|seen| std::mem::take(&mut *seen.borrow_mut()))
}

pub fn clusters(count: usize) {
    if count > 1 {
        note("an array of several clusters");
    }
    if count > 10 {
        note("an array of more than ten clusters");
    }
}

/// The packets of plain reads, and those after the together merges.
pub fn limit(plain: usize, limit: usize) {
    if limit > plain {
        note("more packets after the together merges");
    }
    if limit < plain {
        note("fewer packets after the together merges");
    }
}

/// The merges that one turn of the merge loop could choose from, as (extra, saved).
#[derive(Default)]
pub struct Round {
    offers: Vec<(i128, usize)>,
}

impl Round {
    /// Whether a merge is refused, and for what.
    pub fn refused(&self, cost: bool, name: bool, packets: bool) -> bool {
        let causes = [
            (cost, "a merge refused by cost"),
            (name, "a merge refused by name"),
            (packets, "a merge refused by packets"),
        ];
        for (_, cause) in causes.iter().filter(|(refused, _)| *refused) {
            note(cause);
        }
        match (cost, name, packets) {
            (true, false, false) => note("refused by cost alone"),
            (false, true, false) => note("refused by name alone"),
            (false, false, true) => note("refused by packets alone"),
            _ => {}
        }
        cost || name || packets
    }

    pub fn offer(&mut self, extra: i128, saved: usize) {
        self.offers.push((extra, saved));
    }

    pub fn chosen(&self, extra: i128, saved: usize, run: bool) {
        note(if run { "merge of a run" } else { "merge of a struct" });
        if extra > 0 {
            note("a merge that reads more bytes");
        }
        let same_ratio = |o: &&(i128, usize)| o.0 * saved as i128 == extra * o.1 as i128;
        let tied: Vec<_> = self.offers.iter().filter(same_ratio).collect();
        if tied.iter().any(|o| o.1 != saved) {
            note("a tie decided by reads saved");
        }
        if tied.iter().filter(|o| o.1 == saved).count() > 1 {
            note("a tie decided by key");
        }
        if self.offers.len() > tied.len() {
            note("a choice decided by extra per read saved");
        }
    }
}
