//! The proved read planner for bound cells, as safe Rust.
//!
//! A sheet on a plant screen has cells bound to tags of a controller. From a *catalog* (the controller's tags and types) and a
//! *list* (the sheet's tags) this library plans which reads fetch them, packs the reads into groups for one packet each, and
//! finds each tag's value in what came back.
//!
//! ```
//! use ruvangixo::{Entry, Groups, Plan, Sorted};
//!
//! let catalog = std::fs::read("../../examples/motor.catalog")?;
//! let list = std::fs::read("../../examples/motor.list")?;
//! let file = ruvangixo::plan(&catalog, &list)?;
//!
//! let plan = Plan::read(&file).expect("a plan that was made can be read");
//! let names: Vec<&str> = plan.reads.iter().map(|read| read.name).collect();
//! assert_eq!(names, ["Motor", "Trend[3]{3}", "Odd.5"]);
//!
//! // Which reads go into one packet of 4,000 bytes: all of them.
//! let groups = Groups::read(&ruvangixo::plan_chunks(&catalog, &file, 4000)?).expect("so can groups");
//! assert_eq!((groups.packets, groups.groups), (1, vec![vec![0, 1, 2]]));
//!
//! // Say that all three reads came back in error.
//! let sorted = Sorted::read(&ruvangixo::sort(&file, &[1, 0, 3, 1, 1, 1])?).expect("and sorted answers");
//! assert_eq!(sorted.entries, [Entry::Retry, Entry::Retry, Entry::Retry, Entry::Retry, Entry::Received]);
//! assert_eq!(sorted.failed, [0, 1]);
//! # Ok::<(), Box<dyn std::error::Error>>(())
//! ```
//!
//! What goes in and comes out are files in memory, as bytes. Each call checks its inputs before it does anything and refuses bad
//! ones with a [`Refusal`]; a buffer that is lent to it is then as it was. Nothing here panics, whatever the bytes are. The
//! functions that end in `_into` write to a lent buffer and allocate nothing; bytes behind the answer stay as they were. There is
//! no state between calls, and they may run on any threads at the same time. [`sort()`] and [`dig`] take some 600 KB of stack and
//! [`plan()`] 360 KB, so a thread should have 1 MiB at least; the standard library's threads have 2.

#![deny(missing_docs)]
#![deny(unsafe_code)]

mod files;
#[allow(unsafe_code)]
mod raw;
mod refusal;

pub use files::{Entry, Groups, Key, Member, Path, Plan, Read, Sorted, value_at};
pub use refusal::Refusal;

/// The most bytes that a plan of [`plan_into`] has.
///
/// ```
/// # let catalog = std::fs::read("../../examples/motor.catalog")?;
/// # let list = std::fs::read("../../examples/motor.list")?;
/// let mut out = [0; ruvangixo::PLAN_MOST];
/// let length = ruvangixo::plan_into(&catalog, &list, &mut out)?;
/// # assert_eq!(length, 112);
/// # Ok::<(), Box<dyn std::error::Error>>(())
/// ```
pub const PLAN_MOST: usize = 65_536;

/// The most bytes that a groups file has: 11, and 4 for each of 256 reads.
///
/// ```
/// let mut out = [0; ruvangixo::GROUPS_MOST];
/// let most = ruvangixo::chunks_into(&[0; 256], &[0; 256], 0, &mut out)?;
/// assert_eq!(most, ruvangixo::GROUPS_MOST);
/// # Ok::<(), ruvangixo::Refusal>(())
/// ```
pub const GROUPS_MOST: usize = 1_035;

/// The most bytes that a sorted file has: 5, and 5 for each of the 21,759 members that a plan file has room for. For a plan that
/// [`plan()`] made, [`SORTED_PLANNED_MOST`] is enough.
///
/// ```
/// let mut out = vec![0; ruvangixo::SORTED_MOST];
/// // A plan of no reads, and no results.
/// assert_eq!(ruvangixo::sort_into(&[1, 0, 0], &[1, 0, 0], &mut out)?, 5);
/// # Ok::<(), ruvangixo::Refusal>(())
/// ```
pub const SORTED_MOST: usize = 108_800;

/// The most bytes that a sorted file has for a plan that [`plan()`] made, which serves 256 tags at most.
///
/// ```
/// # let catalog = std::fs::read("../../examples/motor.catalog")?;
/// # let list = std::fs::read("../../examples/motor.list")?;
/// let plan = ruvangixo::plan(&catalog, &list)?;
/// let mut out = [0; ruvangixo::SORTED_PLANNED_MOST];
/// ruvangixo::sort_into(&plan, &[1, 0, 3, 2, 2, 2], &mut out)?;
/// # Ok::<(), Box<dyn std::error::Error>>(())
/// ```
pub const SORTED_PLANNED_MOST: usize = 1_285;

/// The plan of a list over a catalog, as a plan file: which reads fetch the listed tags, and the path from each read's value to
/// its tags.
///
/// Refuses a bad catalog (1 to 7) or list (1 to 5 and 8).
///
/// ```
/// let catalog = std::fs::read("../../examples/motor.catalog")?;
/// let list = std::fs::read("../../examples/motor.list")?;
/// let plan = ruvangixo::plan(&catalog, &list)?;
/// assert_eq!(ruvangixo::Plan::read(&plan).map(|plan| plan.reads.len()), Some(3));
///
/// let refusal = ruvangixo::plan(&catalog, &list[..20]).unwrap_err();
/// assert_eq!(refusal, ruvangixo::Refusal::OutOfFile { place: 13 });
/// # Ok::<(), Box<dyn std::error::Error>>(())
/// ```
pub fn plan(catalog: &[u8], list: &[u8]) -> Result<Vec<u8>, Refusal> {
    written(PLAN_MOST, |out| plan_into(catalog, list, out))
}

/// As [`plan()`], to the front of a lent buffer; tells the bytes written. A buffer that is too short is refused (9).
///
/// ```
/// let catalog = std::fs::read("../../examples/motor.catalog")?;
/// let list = std::fs::read("../../examples/motor.list")?;
/// let refusal = ruvangixo::plan_into(&catalog, &list, &mut [0; 100]).unwrap_err();
/// assert_eq!(refusal, ruvangixo::Refusal::OutputTooShort { needed: 112 });
/// # Ok::<(), Box<dyn std::error::Error>>(())
/// ```
pub fn plan_into(catalog: &[u8], list: &[u8], out: &mut [u8]) -> Result<usize, Refusal> {
    length(raw::plan(catalog, list, out))
}

/// The groups of reads whose requests and replies have these sizes, packed in order into packets of `budget` bytes, as a groups
/// file. A read that has no room beside others is a group of its own, behind the others.
///
/// Refuses tables of more than 256 entries or with one over 2^40 (5), and tables of different lengths (11).
///
/// ```
/// use ruvangixo::{Groups, chunks};
///
/// let groups = Groups::read(&chunks(&[14, 14, 14], &[12, 500, 12], 100)?).unwrap();
/// assert_eq!(groups.groups, [vec![0, 2], vec![1]]);
/// # Ok::<(), ruvangixo::Refusal>(())
/// ```
pub fn chunks(requests: &[u64], replies: &[u64], budget: u16) -> Result<Vec<u8>, Refusal> {
    written(GROUPS_MOST, |out| chunks_into(requests, replies, budget, out))
}

/// As [`chunks`], to the front of a lent buffer; tells the bytes written. A buffer that is too short is refused (9).
///
/// ```
/// let mut out = [7; 20];
/// assert_eq!(ruvangixo::chunks_into(&[14], &[12], 64, &mut out)?, 15);
/// assert_eq!(out, [1, 0, 0, 0, 0, 0, 0, 0, 1, 0, 1, 0, 1, 0, 0, 7, 7, 7, 7, 7]);
/// # Ok::<(), ruvangixo::Refusal>(())
/// ```
pub fn chunks_into(requests: &[u64], replies: &[u64], budget: u16, out: &mut [u8]) -> Result<usize, Refusal> {
    length(raw::chunks(requests, replies, budget, out))
}

/// The groups of a plan's reads, by the sizes that the catalog gives them, as a groups file. The budget is the one of the list.
///
/// Refuses a bad catalog (1 to 7) or plan (1 to 5 and 8).
///
/// ```
/// let catalog = std::fs::read("../../examples/motor.catalog")?;
/// let list = std::fs::read("../../examples/motor.list")?;
/// let plan = ruvangixo::plan(&catalog, &list)?;
/// let budget = u16::from_be_bytes([list[5], list[6]]);
/// let groups = ruvangixo::Groups::read(&ruvangixo::plan_chunks(&catalog, &plan, budget)?).unwrap();
/// assert_eq!(groups.packets, 1);
/// # Ok::<(), Box<dyn std::error::Error>>(())
/// ```
pub fn plan_chunks(catalog: &[u8], plan: &[u8], budget: u16) -> Result<Vec<u8>, Refusal> {
    written(GROUPS_MOST, |out| plan_chunks_into(catalog, plan, budget, out))
}

/// As [`plan_chunks`], to the front of a lent buffer; tells the bytes written. A buffer that is too short is refused (9).
///
/// ```
/// let catalog = std::fs::read("../../examples/motor.catalog")?;
/// let mut out = [0; ruvangixo::GROUPS_MOST];
/// // A plan of no reads: no packets and no groups.
/// assert_eq!(ruvangixo::plan_chunks_into(&catalog, &[1, 0, 0], 4000, &mut out)?, 11);
/// # Ok::<(), Box<dyn std::error::Error>>(())
/// ```
pub fn plan_chunks_into(catalog: &[u8], plan: &[u8], budget: u16, out: &mut [u8]) -> Result<usize, Refusal> {
    length(raw::plan_chunks(catalog, plan, budget, out))
}

/// How many packets reads of these sizes take: the number that [`chunks`] writes into its file.
///
/// Refuses what [`chunks`] refuses of the tables.
///
/// ```
/// assert_eq!(ruvangixo::packets(&[14], &[12], 64), Ok(1));
/// assert_eq!(ruvangixo::packets(&[14], &[12], 63), Ok(4));
/// assert_eq!(ruvangixo::packets(&[14], &[], 64), Err(ruvangixo::Refusal::CountsDiffer { smaller: 0 }));
/// ```
pub fn packets(requests: &[u64], replies: &[u64], budget: u16) -> Result<u64, Refusal> {
    Refusal::of(raw::packets(requests, replies, budget))
}

/// The part of a value file that a path leads to, from its length field on, or `None` where it leads to nothing. A path is a
/// count of keys and the keys, as [`Path::bytes`] has it.
///
/// Refuses a bad value file (1 to 6 and 10) or path (3 to 5).
///
/// ```
/// // An array of two leaves, and the path [1].
/// let value = [1, 0, 0, 0, 15, 1, 0, 2, 0, 0, 0, 2, 0, 77, 0, 0, 0, 2, 0, 88];
/// let part = ruvangixo::dig(&value, &[1, 1, 0, 0, 0, 1])?;
/// assert_eq!(part, Some(&[0, 0, 0, 2, 0, 88][..]));
/// assert_eq!(ruvangixo::dig(&value, &[1, 1, 0, 0, 0, 2])?, None);
/// # Ok::<(), ruvangixo::Refusal>(())
/// ```
pub fn dig<'a>(value: &'a [u8], path: &[u8]) -> Result<Option<&'a [u8]>, Refusal> {
    // Not there is told by 0: no value stands where the version does.
    match length(raw::dig(value, path))? {
        0 => Ok(None),
        place => Ok(value_at(value, place)),
    }
}

/// The sorted answer of a plan and its results, as a sorted file: what each member's cell shows, and which reads failed. The
/// results are in the order of the plan's reads.
///
/// Refuses a bad plan (1 to 5 and 8) or results file (1 to 6 and 10), and results that are not as many as the reads (11).
///
/// ```
/// use ruvangixo::{Entry, Sorted, sort, value_at};
///
/// // A plan of the read R with the member a.b, whose path has the one key b.
/// let plan = [&[1, 0, 1, 1, b'R', 0, 1, 3][..], b"a.b", &[1, 1, 0, 1, b'b']].concat();
/// // A struct came back, and its member b is a leaf.
/// let results = [1, 0, 1, 0, 0, 0, 0, 11, 2, 0, 1, 1, b'b', 0, 0, 0, 2, 0, 99];
/// let sorted = Sorted::read(&sort(&plan, &results)?).unwrap();
/// assert_eq!(sorted.entries, [Entry::Cut(13)]);
/// assert_eq!(value_at(&results, 13), Some(&[0, 0, 0, 2, 0, 99][..]));
/// # Ok::<(), ruvangixo::Refusal>(())
/// ```
pub fn sort(plan: &[u8], results: &[u8]) -> Result<Vec<u8>, Refusal> {
    written(SORTED_MOST, |out| sort_into(plan, results, out))
}

/// As [`sort()`], to the front of a lent buffer; tells the bytes written. A buffer that is too short is refused (9).
///
/// ```
/// let mut out = [7; 6];
/// assert_eq!(ruvangixo::sort_into(&[1, 0, 0], &[1, 0, 0], &mut out)?, 5);
/// assert_eq!(out, [1, 0, 0, 0, 0, 7]);
/// # Ok::<(), ruvangixo::Refusal>(())
/// ```
pub fn sort_into(plan: &[u8], results: &[u8], out: &mut [u8]) -> Result<usize, Refusal> {
    length(raw::sort(plan, results, out))
}

/// An answer in a vector of its own.
fn written(most: usize, call: impl FnOnce(&mut [u8]) -> Result<usize, Refusal>) -> Result<Vec<u8>, Refusal> {
    let mut out = vec![0; most];
    let length = call(&mut out)?;
    out.truncate(length);
    out.shrink_to_fit();
    Ok(out)
}

/// A count of bytes or a place, below the length of a buffer that is there.
fn length(answer: u64) -> Result<usize, Refusal> {
    Refusal::of(answer).map(|n| usize::try_from(n).unwrap_or(usize::MAX))
}
