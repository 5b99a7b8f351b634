//! The command line: `oracle CALL INPUTS..` answers one call, `listing` prints a plan; `table`, `store`, `stored`, `cases`
//! and `compare` work on cases made from a seed.

use std::io::Write;
use std::path::Path;
use std::process::ExitCode;

use oracle::compare;
use oracle::kinds::{self, BUDGET, Fields, KINDS, Kind, NAME};
use oracle::{all, listing, store, table, worst};

fn main() -> ExitCode {
    let mut words: Vec<String> = std::env::args().skip(1).collect();
    let hex = words.iter().any(|w| w == "--hex");
    words.retain(|w| w != "--hex");
    let words: Vec<&str> = words.iter().map(String::as_str).collect();
    match run(&words, hex) {
        Ok(true) => ExitCode::SUCCESS,
        Ok(false) => ExitCode::from(1),
        Err(message) => {
            eprintln!("oracle: {message}");
            ExitCode::from(2)
        }
    }
}

fn run(words: &[&str], hex: bool) -> Result<bool, String> {
    match words {
        ["table", kind, count, seed] => {
            let lines = table::table(kinds::named(kind)?, number(count)?, number(seed)? as u64)?;
            Ok(print(&lines, true))
        }
        ["store", folder, seed] => {
            let lines = store::store(Path::new(folder), number(seed)? as u64)?;
            Ok(print(&lines, true))
        }
        ["stored", folder, seed] => {
            let (lines, same) = store::stored(Path::new(folder), number(seed)? as u64)?;
            Ok(print(&lines, same))
        }
        ["cases", kind, count, seed, folder] => {
            let kind = kinds::named(kind)?;
            let lines = store::many(kind, number(count)?, number(seed)? as u64, Path::new(folder))?;
            Ok(print(&lines, true))
        }
        ["compare", kind, count, seed] => compared(kind, number(count)?, number(seed)? as u64),
        ["listing", catalog, list] => {
            let file = |name: &str| std::fs::read(name).map_err(|e| format!("{name}: {e}"));
            Ok(print(&listing::lines(&file(catalog)?, &file(list)?)?, true))
        }
        ["worst"] => Ok(print(&worst::lines(&compare::linked()?), true)),
        [call, inputs @ ..] => match kinds::named(call) {
            Ok(kind) if kind.inputs.len() == inputs.len() => answer(kind, inputs, hex),
            _ => Err(usage()),
        },
        [] => Err(usage()),
    }
}

/// Compares one call, or all calls of users with progress on standard error.
fn compared(kind: &str, count: usize, seed: u64) -> Result<bool, String> {
    let library = compare::linked()?;
    let (lines, same) = match kind {
        "all" => all::all(&library, count, seed, &mut |line| eprintln!("{line}"))?,
        _ => compare::compare(&library, kind, count, seed)?,
    };
    Ok(print(&lines, same))
}

fn answer(kind: &Kind, inputs: &[&str], hex: bool) -> Result<bool, String> {
    let fields: Result<Fields, String> = kind.inputs.iter().zip(inputs).map(|(what, word)| field(what, word)).collect();
    let bytes = (kind.answer)(&fields?)?;
    let mut out = std::io::stdout();
    let written = match hex {
        true => writeln!(out, "{}", bytes.iter().map(|b| format!("{b:02x}")).collect::<String>()),
        false => out.write_all(&bytes),
    };
    written.map_err(|e| e.to_string())?;
    Ok(true)
}

/// A name or a budget stands on the command line itself, everything else in a file.
fn field(what: &str, word: &str) -> Result<Vec<u8>, String> {
    match what {
        NAME => Ok(word.as_bytes().to_vec()),
        BUDGET => {
            let budget = u16::try_from(number(word)?).map_err(|_| format!("{word} is no budget"))?;
            Ok(budget.to_be_bytes().to_vec())
        }
        _ => std::fs::read(word).map_err(|e| format!("{word}: {e}")),
    }
}

fn number(word: &str) -> Result<usize, String> {
    word.parse().map_err(|_| format!("{word:?} is no number"))
}

fn print(lines: &[String], result: bool) -> bool {
    for line in lines {
        println!("{line}");
    }
    result
}

fn usage() -> String {
    let mut lines = vec!["usage (--hex prints an answer in hexadecimal):".to_owned()];
    for kind in KINDS {
        lines.push(format!("  oracle {} {}", kind.name, kind.inputs.join(" ")));
    }
    lines.push("  oracle table KIND COUNT SEED".to_owned());
    lines.push("  oracle store FOLDER SEED".to_owned());
    lines.push("  oracle stored FOLDER SEED".to_owned());
    lines.push("  oracle cases KIND COUNT SEED FOLDER".to_owned());
    lines.push("  oracle compare KIND COUNT SEED".to_owned());
    lines.push("  oracle compare all COUNT SEED".to_owned());
    lines.push("  oracle listing CATALOG LIST".to_owned());
    lines.push("  oracle worst".to_owned());
    lines.join("\n")
}
