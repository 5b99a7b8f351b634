//! Groups and packets: of a plan's reads by a catalog, and of two size tables.

use std::hint::black_box;
use std::time::Instant;

use oracle::bytes::table_bytes;
use oracle::catalog::Catalog;
use oracle::library::Library;
use oracle::plan::{self, PlannedRead};
use oracle::planner::{self, Read, reach};
use oracle::{groups, plc};

use crate::case::{Case, Decoding, Right, Rust};

/// The Rust's `chunks`; the port checks the catalog and the plan at each call.
pub fn plan_chunks(catalog: &Catalog, reads: &[PlannedRead], budget: u16, decoding: Decoding) -> Result<Case, String> {
    let (c, p) = (catalog.write(), plan::write(reads));
    let right = Right::Written(groups::plan_chunks(&c, &p, budget)?);
    let rust: Rust = match decoding {
        Decoding::Before => {
            let (catalog, reads) = (catalog.to_rust(), decoded(reads));
            Box::new(move || by_rust(&reads, &catalog, budget))
        }
        Decoding::Timed => {
            let (c, p) = (c.clone(), p.clone());
            Box::new(move || of_files(&c, &p, budget))
        }
    };
    // The pointers and lengths are those of three live vectors that nothing else holds.
    let port = move |library: &Library, out: &mut [u8]| unsafe {
        (library.plan_chunks)(c.as_ptr(), c.len(), p.as_ptr(), p.len(), budget, out.as_mut_ptr(), out.len())
    };
    Ok(Case { rust: Some(rust), port: Box::new(port), right })
}

/// A plan's reads as the Rust has them.
pub fn decoded(reads: &[PlannedRead]) -> Vec<Read> {
    let member = |(tag, path): &plan::Member| (tag.clone(), path.as_deref().map(reach::keys));
    let read = |r: &PlannedRead| Read { name: r.name.clone(), members: r.members.iter().map(member).collect() };
    reads.iter().map(read).collect()
}

fn by_rust(reads: &[Read], catalog: &plc::Catalog, budget: u16) -> u128 {
    let reads = reads.to_vec();
    let start = Instant::now();
    let groups = planner::chunks(black_box(reads), catalog, budget.into());
    let time = start.elapsed().as_nanos();
    black_box(groups);
    time
}

fn of_files(catalog: &[u8], plan: &[u8], budget: u16) -> u128 {
    let start = Instant::now();
    let catalog = Catalog::read(black_box(catalog)).map(|catalog| catalog.to_rust());
    let reads = plan::read(black_box(plan)).map(|reads| decoded(&reads));
    let groups = catalog.and_then(|catalog| Ok((planner::chunks(reads?, &catalog, budget.into()), catalog)));
    let time = start.elapsed().as_nanos();
    drop(black_box(groups));
    time
}

/// The groups of two size tables, beside the Rust's `pack`.
pub fn chunks(requests: &[u64], replies: &[u64], budget: u16) -> Result<Case, String> {
    let right = groups::chunks(&table_bytes(requests), &table_bytes(replies), budget)?;
    let sizes = pairs(requests, replies);
    let rust = move || {
        let start = Instant::now();
        let packed = reach::pack(black_box(&sizes), budget.into());
        let time = start.elapsed().as_nanos();
        black_box(packed);
        time
    };
    let (t, u) = (requests.to_vec(), replies.to_vec());
    // The pointers and lengths are those of three live vectors that nothing else holds.
    let port = move |library: &Library, out: &mut [u8]| unsafe {
        (library.chunks)(t.as_ptr(), t.len(), u.as_ptr(), u.len(), budget, out.as_mut_ptr(), out.len())
    };
    Ok(Case { rust: Some(Box::new(rust)), port: Box::new(port), right: Right::Written(right) })
}

/// The packet count of two size tables, beside the Rust's `packets`.
pub fn packets(requests: &[u64], replies: &[u64], budget: u16) -> Result<Case, String> {
    let sizes = pairs(requests, replies);
    let right = planner::packets(&sizes, budget.into()) as u64;
    let rust = move || {
        let start = Instant::now();
        black_box(planner::packets(black_box(&sizes), budget.into()));
        start.elapsed().as_nanos()
    };
    let (t, u) = (requests.to_vec(), replies.to_vec());
    // The pointers and lengths are those of two live vectors.
    let port = move |library: &Library, _: &mut [u8]| unsafe {
        (library.packets)(t.as_ptr(), t.len(), u.as_ptr(), u.len(), budget)
    };
    Ok(Case { rust: Some(Box::new(rust)), port: Box::new(port), right: Right::Returned(right) })
}

fn pairs(requests: &[u64], replies: &[u64]) -> Vec<(usize, usize)> {
    requests.iter().zip(replies).map(|(request, reply)| (*request as usize, *reply as usize)).collect()
}
