//! How long the library's calls take, with the Rust's beside them; without the feature `port` the Rust's alone.
//! `speed CALLS` times the bench, `speed worst` inputs made up to take long. No test looks at these times.

mod bench;
mod case;
mod cuts;
mod far;
mod groups;
mod plans;
mod slow;
mod slow_files;
mod table;

use std::process::ExitCode;

use case::{Case, Decoding};
use oracle::library::{self, Library};
use table::Of;

/// How often a call is made: on the bench where nothing is said, and on slow inputs.
const CALLS: usize = 1000;
const TIMES: usize = 5;
/// The most time that the Rust's calls of a row may take before no further one is made, in nanoseconds.
const BENCH: u128 = 60_000_000_000;
const WORST: u128 = 10_000_000_000;
/// The budget of packed plans.
const BUDGET: u16 = 4000;

/// Which map the Rust was built with.
const MAP: &str = match cfg!(feature = "real-map") {
    true => "the crate indexmap itself",
    false => "the stand-in for the crate indexmap",
};

fn main() -> ExitCode {
    let words: Vec<String> = std::env::args().skip(1).collect();
    let words: Vec<&str> = words.iter().map(String::as_str).collect();
    let port = library::linked().ok();
    let done = match words[..] {
        [] => bench(CALLS, port.as_ref()),
        ["worst"] => worst(port.as_ref()),
        [calls] => calls.parse().map_err(|_| usage()).and_then(|calls: usize| bench(calls.max(1), port.as_ref())),
        _ => Err(usage()),
    };
    match done {
        Ok(()) => ExitCode::SUCCESS,
        Err(message) => {
            eprintln!("speed: {message}");
            ExitCode::from(2)
        }
    }
}

fn usage() -> String {
    "usage: speed [CALLS] or speed worst".to_owned()
}

/// The medians of so many calls, a row for each call.
fn bench(calls: usize, port: Option<&Library>) -> Result<(), String> {
    table::head(&format!("call, median of {calls} calls"));
    for (what, case) in bench::rows() {
        let times = case.and_then(|case| case.times(port, calls, BENCH)).map_err(|e| format!("{what}: {e}"))?;
        table::row(&what, times, calls, Of::Median);
    }
    println!("\nThe Rust's map is {MAP}.");
    Ok(())
}

/// The shortest of a few calls, a row for each input.
fn worst(port: Option<&Library>) -> Result<(), String> {
    table::head(&format!("call and input, shortest of {TIMES} calls"));
    for (what, catalog, list) in slow::lists() {
        slow_row("plan", what, plans::plan(&catalog, &list), port)?;
    }
    for (what, catalog) in slow_files::catalogs() {
        slow_row("catalog", what, plans::check(&catalog), port)?;
    }
    for (what, catalog, reads) in slow_files::plans() {
        slow_row("plan_chunks", what, groups::plan_chunks(&catalog, &reads, BUDGET, Decoding::Before), port)?;
    }
    for (what, value, path) in slow_files::values() {
        slow_row("dig", what, cuts::dig(&value, &path, Decoding::Before), port)?;
    }
    for (what, reads, outcomes) in slow_files::results() {
        slow_row("sort", what, cuts::sort(&reads, &outcomes, Decoding::Before), port)?;
    }
    println!("\nThe Rust's map is {MAP}.");
    Ok(())
}

fn slow_row(call: &str, what: &str, case: Result<Case, String>, port: Option<&Library>) -> Result<(), String> {
    let what = format!("{call}: {what}");
    let times = case.and_then(|case| case.times(port, TIMES, WORST)).map_err(|e| format!("{what}: {e}"))?;
    table::row(&what, times, TIMES, Of::Shortest);
    Ok(())
}
