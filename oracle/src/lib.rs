//! Answers what the planner's own Rust answers, in the layouts of the port's files. planner.rs and plc.rs are the
//! customer's, unchanged; around them stand readers and writers of the files, generators of cases from a seed, the
//! stored cases and the comparison with the port's static library.

#![allow(clippy::duplicate_mod)] // the window into planner.rs also stands in its counting copy

#[rustfmt::skip]
#[allow(clippy::all)]
#[path = "../target/source/planner.rs"]
pub mod planner;
#[rustfmt::skip]
#[allow(clippy::all)]
#[path = "../target/source/plc.rs"]
pub mod plc;
#[rustfmt::skip]
#[allow(clippy::all)]
#[path = "../target/source/counted.rs"]
pub mod counted;

pub mod all;
pub mod by_hand;
pub mod bytes;
pub mod catalog;
pub mod compare;
pub mod config;
pub mod cuts;
pub mod damaged;
pub mod extremes;
pub mod features;
pub mod generate;
pub mod groups;
pub mod guard;
pub mod hand;
pub mod kinds;
pub mod library;
pub mod list;
pub mod listed;
pub mod listing;
pub mod lookup;
pub mod names;
pub mod packed;
pub mod plan;
pub mod planned;
pub mod random;
pub mod refusals;
pub mod results;
#[cfg(test)]
mod signatures;
pub mod smaller;
pub mod store;
pub mod table;
pub mod tally;
pub mod value;
pub mod worst;
