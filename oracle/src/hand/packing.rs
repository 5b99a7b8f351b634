//! Tables and plans to be packed, at the budgets where packing changes.

use super::catalogs::{bench, flat, kinds};
use super::shapes::texts;
use crate::bytes::table_bytes;
use crate::kinds::Fields;
use crate::plan::{self, PlannedRead};

const BUDGETS: &[u16] = &[0, 1, 51, 52, 53, 63, 64, 65_535];

/// Rows of (request, reply).
const ROWS: &[&[(u64, u64)]] = &[
    &[],
    &[(14, 12)],
    &[(0, 0)],
    &[(0, 1), (0, 2)],
    &[(22, 0), (23, 0), (21, 0), (1, 1)],
    &[(14, 12), (14, 12), (14, 12)],
    &[(10, 5), (10, 5000), (10, 6), (10, 1)],
    &[(10, 1), (3, 70_000), (2, 1), (1 << 40, 1), (1, 1)],
    &[(1 << 40, 1 << 40), (1 << 40, 1 << 40)],
    &[(0, 1 << 40), (0, 0)],
    &[(33, 11), (1, 1), (1, 0), (0, 1)],
    &[(34, 12)],
    &[(35, 12)],
    &[(34, 13)],
    &[(65_505, 65_483)],
    &[(65_506, 65_483)],
    &[(65_505, 65_484)],
    &[(30_000, 1), (35_505, 1), (1, 1)],
    &[(1, 30_000), (1, 35_483), (1, 1)],
];

pub fn tables() -> Vec<Fields> {
    let mut all = Vec::new();
    for row in ROWS {
        for budget in BUDGETS {
            all.push(table(row, *budget));
        }
    }
    let full = vec![(14, 12); 256];
    for budget in [0, 64, 100, 3614, 4000, 65_535] {
        all.push(table(&full, budget));
    }
    all
}

fn table(row: &[(u64, u64)], budget: u16) -> Fields {
    let (requests, replies): (Vec<u64>, Vec<u64>) = row.iter().copied().unzip();
    vec![table_bytes(&requests), table_bytes(&replies), budget.to_be_bytes().to_vec()]
}

/// Plans whose reads have these names; chunks looks at nothing else of them.
pub fn plans() -> Vec<Fields> {
    let rows: &[(&crate::catalog::Catalog, &[&str])] = &[
        (&bench(), &[]),
        (&bench(), &["Motor", "Trend[3]{3}", "Odd.5"]),
        (&bench(), &["Trend[0]{1000001}", "Trend[1]", "Trend[2]{0}", "Motor.Speed"]),
        (&bench(), &["Motor", "Motor", "motor", "MOTOR.speed", "Nothing", ""]),
        (&flat(), &["A[3]", "A[4]", "X{3}", "X{3}{2}", "X.", "X.5", "Program:a b[c{.X"]),
        (&kinds(), &["Bools{33}", "Bool{33}", "Words{64}", "Word{64}", "Big[1]", "Bare[1]{3}", "Ghost{4}"]),
        (&kinds(), &["Sized", "Text", "Name", "Id2[3]{5}", "Two[1,2]", "Nothing{9}"]),
    ];
    let mut all = Vec::new();
    for (catalog, names) in rows {
        let read = |name: String| PlannedRead { name: name.clone(), members: vec![(name, None)] };
        let reads: Vec<_> = texts(names).into_iter().map(read).collect();
        for budget in [0, 52, 63, 64, 100, 150, 4000, 65_535_u16] {
            all.push(vec![catalog.write(), plan::write(&reads), budget.to_be_bytes().to_vec()]);
        }
    }
    all
}
