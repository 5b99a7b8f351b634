//! Cases from a seed, one file for each thing that is made.

pub mod catalogs;
pub mod edges;
pub mod lists;
pub mod names;
pub mod plans;
pub mod tables;
pub mod values;
pub mod walks;
