//! Size tables at their limits.

use crate::bytes::table_bytes;
use crate::compare::Fixed;
use crate::packed::{LARGEST, MOST};
use crate::refusals::SentBack;

pub fn all() -> Vec<Fixed> {
    let mut cases = counts();
    cases.extend(entries());
    let full = || vec![LARGEST; MOST];
    for (what, budget) in [("budget 0", 0), ("budget 65,535", u16::MAX)] {
        cases.push(case(what, &[14; 20], &[1200; 20], budget, None));
        cases.push(case(&format!("{what} and 256 entries of 2^40"), &full(), &full(), budget, None));
    }
    cases
}

/// Tables of 256 entries and of 257, and counts that differ by one.
fn counts() -> Vec<Fixed> {
    let rows: &[(&str, usize, usize, Option<SentBack>)] = &[
        ("256 entries", 256, 256, None),
        ("257 entries", 257, 257, Some((5, 256))),
        ("257 requests", 257, 256, Some((5, 256))),
        ("257 replies", 256, 257, Some((5, 256))),
        ("no entries", 0, 0, None),
        ("no request for a reply", 0, 1, Some((11, 0))),
        ("no reply for a request", 1, 0, Some((11, 0))),
        ("a request more than 255 replies", 256, 255, Some((11, 255))),
        ("a reply more than 255 requests", 255, 256, Some((11, 255))),
    ];
    rows.iter().map(|(what, t, u, back)| case(what, &vec![14; *t], &vec![12; *u], 4000, *back)).collect()
}

/// An entry of 2^40, and of one more, at the front and at the end of each table.
fn entries() -> Vec<Fixed> {
    let mut cases = Vec::new();
    for position in [0, MOST - 1] {
        for (table, name) in ["request", "reply"].iter().enumerate() {
            for (entry, back) in [(LARGEST, None), (LARGEST + 1, Some((5, position as u64)))] {
                let mut tables = [vec![14; MOST], vec![12; MOST]];
                tables[table][position] = entry;
                let what = format!("{name} {position} of {entry}");
                cases.push(case(&what, &tables[0], &tables[1], 4000, back));
            }
        }
    }
    cases
}

fn case(what: &str, requests: &[u64], replies: &[u64], budget: u16, sent_back: Option<SentBack>) -> Fixed {
    let fields = vec![table_bytes(requests), table_bytes(replies), budget.to_be_bytes().to_vec()];
    Fixed { what: what.to_owned(), fields, sent_back }
}
