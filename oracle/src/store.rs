//! The stored cases: one file a kind, a row of cases, each a row of fields behind a length of 4 bytes. Those made
//! by hand come first, then generated ones that show something still rare, then any until there are enough. Damaged
//! catalogs, lists, plans and values are files of their own, all made by hand; lists and plans to be written anew too.

use std::collections::HashMap;
use std::path::Path;

use crate::bytes::Writer;
use crate::damaged::{self, Case};
use crate::kinds::{self, Fields, KINDS, Kind};
use crate::random::Random;

/// How often a feature is to be among the stored cases before it is no longer looked for.
const WANTED: usize = 5;
/// How many cases are looked at for rare features.
const LOOKED_AT: usize = 6000;
/// Generated cases of more bytes are left out, but for a few.
const SMALL: usize = 1500;
const FEW: usize = 12;
/// How many lists are stored to be written anew, and from which cases of `plan`.
const LISTS: usize = 120;
const EVERY: usize = 7;
/// The same for plans.
const PLANS: usize = 120;
const EVERY_PLAN: usize = 5;

/// A file of stored cases.
struct Stored {
    name: String,
    cases: usize,
    bytes: Vec<u8>,
}

/// Writes every file; tells their names, numbers of cases and sizes.
pub fn store(folder: &Path, seed: u64) -> Result<Vec<String>, String> {
    let mut lines = Vec::new();
    for file in files(seed)? {
        let path = folder.join(&file.name);
        std::fs::write(&path, &file.bytes).map_err(|e| format!("{}: {e}", path.display()))?;
        lines.push(format!("{}: {} cases, {} bytes", file.name, file.cases, file.bytes.len()));
    }
    Ok(lines)
}

/// Makes every file again and holds it against the stored one: a line for each, and whether all are the same.
pub fn stored(folder: &Path, seed: u64) -> Result<(Vec<String>, bool), String> {
    let mut lines = Vec::new();
    let mut all = true;
    for file in files(seed)? {
        let same = std::fs::read(folder.join(&file.name)).is_ok_and(|old| old == file.bytes);
        all &= same;
        lines.push(format!("{}: {}", file.name, if same { "same" } else { "different" }));
    }
    Ok((lines, all))
}

/// What the program that replays a file of cases reads of it.
const REPLAYED: usize = 262_144;

/// Writes generated cases of a kind, as they come, to FOLDER/0, FOLDER/1 and so on, each no longer than can be
/// replayed; tells how many files there are.
pub fn many(kind: &Kind, count: usize, seed: u64, folder: &Path) -> Result<Vec<String>, String> {
    let mut random = Random::named(seed, kind.name);
    let mut row = Vec::new();
    let mut bytes = 0;
    let mut files = 0;
    for _ in 0..count {
        let case = (kind.generate)(&mut random);
        let size = answered(kind, std::slice::from_ref(&case))?.bytes.len();
        if bytes + size >= REPLAYED {
            place(folder, files, &answered(kind, &row)?)?;
            (row, bytes, files) = (Vec::new(), 0, files + 1);
        }
        bytes += size;
        row.push(case);
    }
    place(folder, files, &answered(kind, &row)?)?;
    Ok(vec![format!("{count} cases in {} files", files + 1)])
}

fn place(folder: &Path, number: usize, file: &Stored) -> Result<(), String> {
    let folder = folder.join(number.to_string());
    let path = folder.join(&file.name);
    let fault = |e| format!("{}: {e}", path.display());
    std::fs::create_dir_all(&folder).map_err(fault)?;
    std::fs::write(&path, &file.bytes).map_err(fault)
}

fn files(seed: u64) -> Result<Vec<Stored>, String> {
    let mut files = Vec::new();
    for kind in KINDS {
        files.push(answered(kind, &choose(kind, seed)?)?);
    }
    files.push(damaged_file("damaged", &damaged::catalogs::all()));
    files.push(damaged_file("damaged_lists", &damaged::lists::all()));
    files.push(damaged_file("damaged_plans", &damaged::plans::all()));
    files.push(damaged_file("damaged_values", &damaged::values::all()));
    files.push(anew_file("lists", &lists(seed)?));
    files.push(anew_file("plans", &plans(seed)?));
    Ok(files)
}

/// The cases of a kind, without their answers.
pub fn choose(kind: &Kind, seed: u64) -> Result<Vec<Fields>, String> {
    let mut seen: HashMap<&'static str, usize> = HashMap::new();
    let mut cases = (kind.hand)();
    for case in &cases {
        note(kind, case, &mut seen)?;
    }
    let mut random = Random::named(seed, kind.name);
    let mut large = 0;
    let mut spare = Vec::new();
    for _ in 0..LOOKED_AT {
        let case = (kind.generate)(&mut random);
        let big = case.iter().map(Vec::len).sum::<usize>() > SMALL;
        if cases.contains(&case) || big && large >= FEW {
            continue;
        }
        let features = (kind.features)(&case, &(kind.answer)(&case)?).0;
        let rare = features.iter().any(|f| seen.get(f).is_none_or(|n| *n < WANTED));
        if rare && cases.len() < kind.stored {
            large += usize::from(big);
            note(kind, &case, &mut seen)?;
            cases.push(case);
        } else if !big && spare.len() < kind.stored {
            spare.push(case);
        }
    }
    let missing = kind.stored.saturating_sub(cases.len());
    cases.extend(spare.into_iter().take(missing));
    Ok(cases)
}

fn note(kind: &Kind, case: &Fields, seen: &mut HashMap<&'static str, usize>) -> Result<(), String> {
    for feature in (kind.features)(case, &(kind.answer)(case)?).0 {
        *seen.entry(feature).or_default() += 1;
    }
    Ok(())
}

/// The file of a kind, each case with the answer of the Rust.
fn answered(kind: &Kind, cases: &[Fields]) -> Result<Stored, String> {
    let mut writer = Writer::default();
    for case in cases {
        case.iter().for_each(|field| put(&mut writer, field));
        put(&mut writer, &(kind.answer)(case)?);
    }
    Ok(Stored { name: format!("{}.cases", kind.name), cases: cases.len(), bytes: writer.file })
}

/// A file of damaged files, laid out as cases with a catalog and a name: the name is empty.
fn damaged_file(name: &str, cases: &[Case]) -> Stored {
    let mut writer = Writer::default();
    for case in cases {
        put(&mut writer, &case.file);
        put(&mut writer, &[]);
        put(&mut writer, &case.answer());
    }
    Stored { name: format!("{name}.cases"), cases: cases.len(), bytes: writer.file }
}

/// Lists to be written anew from what is read of them: those made by hand that are accepted, then every so many of the
/// stored cases of `plan`.
pub fn lists(seed: u64) -> Result<Vec<Vec<u8>>, String> {
    let accepted = damaged::lists::all().into_iter().filter(|case| case.number == 0).map(|case| case.file);
    let mut lists: Vec<Vec<u8>> = accepted.collect();
    for mut case in choose(kinds::named("plan")?, seed)?.into_iter().step_by(EVERY) {
        let list = case.swap_remove(1);
        if lists.len() < LISTS && !lists.contains(&list) {
            lists.push(list);
        }
    }
    Ok(lists)
}

/// Plans to be written anew: those made by hand that are accepted, then answers of the stored cases of `plan`.
pub fn plans(seed: u64) -> Result<Vec<Vec<u8>>, String> {
    let kind = kinds::named("plan")?;
    let mut plans: Vec<Vec<u8>> = Vec::new();
    for case in damaged::plans::all().into_iter().filter(|case| case.number == 0) {
        if !plans.contains(&case.file) {
            plans.push(case.file);
        }
    }
    for case in choose(kind, seed)?.into_iter().step_by(EVERY_PLAN) {
        let plan = (kind.answer)(&case)?;
        if plans.len() < PLANS && !plans.contains(&plan) {
            plans.push(plan);
        }
    }
    Ok(plans)
}

/// Each file is the answer too.
fn anew_file(name: &str, files: &[Vec<u8>]) -> Stored {
    let mut writer = Writer::default();
    for file in files {
        put(&mut writer, file);
        put(&mut writer, file);
    }
    Stored { name: format!("{name}.cases"), cases: files.len(), bytes: writer.file }
}

fn put(writer: &mut Writer, field: &[u8]) {
    writer.count(4, field.len());
    writer.file.extend_from_slice(field);
}
