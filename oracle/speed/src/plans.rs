//! Plans: by the Rust from nodes and tags that are decoded already, by the port from the two files. And the port's
//! check of a catalog, for which the Rust has nothing.

use std::collections::HashSet;
use std::hint::black_box;
use std::time::Instant;

use oracle::catalog::{Catalog, Parts};
use oracle::library::Library;
use oracle::list::List;
use oracle::{plan, planner, plc};
use serde_json::Value as Json;

use crate::case::{Case, Right};

/// An error if a file would be refused.
pub fn plan(catalog: &Catalog, list: &List) -> Result<Case, String> {
    let (c, l) = (catalog.write(), list.write());
    let right = Right::Written(plan::answer(&c, &l)?);
    let (parts, list) = (catalog.parts(), list.clone());
    let no_group: HashSet<String> = list.no_group.iter().cloned().collect();
    // The pointers and lengths are those of three live vectors that nothing else holds.
    let port = move |library: &Library, out: &mut [u8]| unsafe {
        (library.plan)(c.as_ptr(), c.len(), l.as_ptr(), l.len(), out.as_mut_ptr(), out.len())
    };
    Ok(Case { rust: Some(Box::new(move || by_rust(&parts, &list, &no_group))), port: Box::new(port), right })
}

/// The time of `Catalog::new` and `plan`.
fn by_rust(parts: &Parts, list: &List, no_group: &HashSet<String>) -> u128 {
    let (tags, types) = parts.clone();
    let together = |name: &str| list.together.iter().any(|t| t.eq_ignore_ascii_case(name));
    let (maximum, budget) = (u64::from(list.whole_max), usize::from(list.budget));
    let start = Instant::now();
    let catalog = plc::Catalog::new(Json::Null, black_box(tags), types);
    let reads = planner::plan(black_box(&list.tags), &catalog, maximum, no_group, budget, Some(&together));
    let time = start.elapsed().as_nanos();
    black_box((catalog, reads));
    time
}

/// The check of a catalog that is accepted.
pub fn check(catalog: &Catalog) -> Result<Case, String> {
    let file = catalog.write();
    Catalog::read(&file)?;
    // The pointer and the length are those of a live vector.
    let port = move |library: &Library, _: &mut [u8]| unsafe { (library.catalog)(file.as_ptr(), file.len()) };
    Ok(Case { rust: None, port: Box::new(port), right: Right::Returned(0) })
}
