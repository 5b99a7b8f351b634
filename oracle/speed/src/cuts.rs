//! Cut values: `dig` on a value file, and `sort` of a plan's results beside the Rust's `execute` on one chunk.

use std::hint::black_box;
use std::time::Instant;

use ciplink::Value;
use ciplink::cip::TagResult;
use oracle::library::Library;
use oracle::plan::{self, PlannedRead, Step};
use oracle::planner::{self, Key, Read, reach};
use oracle::plc::Plc;
use oracle::results::{self, Answers, Outcome};
use oracle::value::{self, Plain};

use crate::case::{Case, Decoding, Right, Rust};
use crate::groups::decoded;

/// The port checks the whole file and the path at each call.
pub fn dig(value: &Plain, path: &[Step], decoding: Decoding) -> Result<Case, String> {
    let (v, p) = (value::write(value), plan::write_path(path));
    let place = value::dig(&v, &p)?.iter().fold(0, |n, b| n << 8 | u64::from(*b));
    let keys = reach::keys(path);
    let rust: Rust = match decoding {
        Decoding::Before => {
            let decoded = value::read(&v)?;
            Box::new(move || dig_decoded(&decoded, &keys))
        }
        Decoding::Timed => {
            let file = v.clone();
            Box::new(move || dig_file(&file, &keys))
        }
    };
    // The pointers and lengths are those of two live vectors.
    let port =
        move |library: &Library, _: &mut [u8]| unsafe { (library.dig)(v.as_ptr(), v.len(), p.as_ptr(), p.len()) };
    Ok(Case { rust: Some(rust), port: Box::new(port), right: Right::Returned(place) })
}

fn dig_decoded(value: &Value, keys: &[Key]) -> u128 {
    let start = Instant::now();
    let cut = planner::dig(black_box(value), keys);
    let time = start.elapsed().as_nanos();
    black_box(cut);
    time
}

fn dig_file(file: &[u8], keys: &[Key]) -> u128 {
    let start = Instant::now();
    let value = value::read(black_box(file));
    let cut = value.as_ref().map(|value| planner::dig(value, keys));
    let time = start.elapsed().as_nanos();
    drop(black_box(cut));
    time
}

/// One `execute` over all reads; the port checks the plan and the results at each call.
pub fn sort(reads: &[PlannedRead], outcomes: &[Outcome], decoding: Decoding) -> Result<Case, String> {
    let (p, r) = (plan::write(reads), results::write(outcomes));
    let right = Right::Written(results::sort(&p, &r)?);
    let rust: Rust = match decoding {
        Decoding::Before => {
            let (chunks, received) = ([decoded(reads)], results::read(&r)?);
            Box::new(move || execute(&chunks, &received))
        }
        Decoding::Timed => {
            let (p, r) = (p.clone(), r.clone());
            Box::new(move || execute_files(&p, &r))
        }
    };
    // The pointers and lengths are those of three live vectors that nothing else holds.
    let port = move |library: &Library, out: &mut [u8]| unsafe {
        (library.sort)(p.as_ptr(), p.len(), r.as_ptr(), r.len(), out.as_mut_ptr(), out.len())
    };
    Ok(Case { rust: Some(rust), port: Box::new(port), right })
}

fn execute(chunks: &[Vec<Read>], received: &[TagResult]) -> u128 {
    let received = received.to_vec();
    let start = Instant::now();
    let sorted = sorted(black_box(chunks), received);
    let time = start.elapsed().as_nanos();
    drop(black_box(sorted));
    time
}

fn execute_files(plan: &[u8], results: &[u8]) -> u128 {
    let start = Instant::now();
    let reads = plan::read(black_box(plan)).map(|reads| [decoded(&reads)]);
    let sorted = reads.and_then(|chunks| Ok((sorted(&chunks, results::read(black_box(results))?), chunks)));
    let time = start.elapsed().as_nanos();
    drop(black_box(sorted));
    time
}

fn sorted(chunks: &[Vec<Read>], received: Vec<TagResult>) -> impl Sized + use<> {
    let empty = TagResult { tag: String::new(), value: None, data_type: None, error: None };
    let mut plc = Answers { first: Some(received), later: empty };
    let mut between = |_: &mut dyn Plc, _| Err("one chunk has nothing between".to_owned());
    planner::execute(&mut plc, chunks, &mut between)
}
