//! The cases that were made by hand, put to the calls of users: the accepted ones of each kind, and every file of
//! `damaged/` with other inputs that are accepted.

use crate::compare::Fixed;
use crate::damaged::{Case, catalogs, lists, plans, values};
use crate::hand::catalogs::bench;
use crate::hand::plans::{FIVE, list};
use crate::kinds::{self, Fields};
use crate::plan;
use crate::results::{self, Outcome};

/// The cases of a call.
pub fn of(call: &str) -> Result<Vec<Fixed>, String> {
    let accepted = |fields: Fields| Fixed { what: "a case by hand".to_owned(), fields, sent_back: None };
    let mut cases: Vec<Fixed> = (kinds::named(call)?.hand)().into_iter().map(accepted).collect();
    let (catalog, list) = (bench().write(), list(FIVE).write());
    let reads = plan::answer(&catalog, &list)?;
    let budget = || vec![0, 100];
    match call {
        "plan" => {
            cases.extend(with(catalogs::all(), |file| vec![file, list.clone()]));
            cases.extend(with(lists::all(), |file| vec![catalog.clone(), file]));
        }
        "plan_chunks" => {
            cases.extend(with(catalogs::all(), |file| vec![file, reads.clone(), budget()]));
            cases.extend(with(plans::all(), |file| vec![catalog.clone(), file, budget()]));
        }
        "dig" => cases.extend(with(values::all(), |file| vec![file, plan::write_path(&[])])),
        "sort" => {
            cases.extend(with(plans::all(), sorted));
            let one = plan::write(&plan::read(&reads)?[..1]);
            cases.extend(with(as_results(), |file| vec![one.clone(), file]));
        }
        _ => {}
    }
    Ok(cases)
}

fn with(cases: Vec<Case>, fields: impl Fn(Vec<u8>) -> Fields) -> Vec<Fixed> {
    let fixed = |case: Case| Fixed {
        what: case.what,
        fields: fields(case.file),
        sent_back: (case.number != 0).then_some((case.number, case.returned)),
    };
    cases.into_iter().map(fixed).collect()
}

/// A plan with a result for each of its reads; one that is refused gets none.
fn sorted(file: Vec<u8>) -> Fields {
    let count = plan::read(&file).map_or(0, |reads| reads.len());
    vec![file, results::write(&vec![Outcome::Neither; count])]
}

/// The values as the only result: three bytes come before, so that places move and the longest file is too long.
fn as_results() -> Vec<Case> {
    let within = |case: &Case| case.file.first() == Some(&1) && case.file.len() + 3 <= results::LIMIT;
    let moved = |case: Case| Case {
        file: [&[1, 0, 1, 0], &case.file[1..]].concat(),
        returned: if case.number == 0 { 0 } else { case.returned + 3 },
        ..case
    };
    values::all().into_iter().filter(within).map(moved).collect()
}
