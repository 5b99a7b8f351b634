//! Cases made by hand: the lines of the port's document and the points at which one could think that the Rust does
//! otherwise than it does.

pub mod catalogs;
pub mod lookup;
pub mod names;
pub mod packing;
pub mod plans;
pub mod shapes;
pub mod values;
