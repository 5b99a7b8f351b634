//! What a case shows, by name. Tables of cases are counted by these, and stored cases are chosen so that each of
//! them occurs.

pub mod lookup;
pub mod names;
pub mod packing;
pub mod plan;
pub mod values;

/// The features of one case.
#[derive(Default)]
pub struct Features(pub Vec<&'static str>);

impl Features {
    pub fn when(&mut self, shown: bool, name: &'static str) {
        if shown {
            self.0.push(name);
        }
    }
}
