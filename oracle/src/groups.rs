//! Groups and packets: the Rust's packing of two size tables, or of a plan's reads sized by a catalog.

use crate::bytes::{Writer, table};
use crate::catalog::Catalog;
use crate::plan::{self, PlannedRead};
use crate::planner::{self, reach};
use crate::plc;

/// The groups file of two size tables.
pub fn chunks(requests: &[u8], replies: &[u8], budget: u16) -> Result<Vec<u8>, String> {
    let (groups, packets) = reach::pack(&sizes(requests, replies)?, budget.into());
    Ok(write(&groups, packets))
}

/// The packet count of two size tables, in 8 bytes.
pub fn packets(requests: &[u8], replies: &[u8], budget: u16) -> Result<Vec<u8>, String> {
    let packets = planner::packets(&sizes(requests, replies)?, budget.into());
    Ok((packets as u64).to_be_bytes().to_vec())
}

/// The groups file of a plan's reads.
pub fn plan_chunks(catalog: &[u8], plan: &[u8], budget: u16) -> Result<Vec<u8>, String> {
    let catalog = Catalog::read(catalog)?.to_rust();
    let (groups, packets) = of_reads(&plan::read(plan)?, &catalog, budget);
    Ok(write(&groups, packets))
}

/// The groups of a plan's reads by their positions, and the packet count. `chunks` itself splits the reads; the count
/// comes from its packing.
pub fn of_reads(reads: &[PlannedRead], catalog: &plc::Catalog, budget: u16) -> (Vec<Vec<usize>>, usize) {
    let sizes: Vec<_> = reads.iter().map(|r| reach::read_size(&r.name, catalog)).collect();
    let groups = reach::chunks(reads, catalog, budget.into());
    let (packed, packets) = reach::pack(&sizes, budget.into());
    assert_eq!(groups, packed, "chunks splits as pack does");
    (groups, packets)
}

fn sizes(requests: &[u8], replies: &[u8]) -> Result<Vec<(usize, usize)>, String> {
    let (requests, replies) = (table(requests)?, table(replies)?);
    if requests.len() != replies.len() {
        return Err("the two tables differ in count".to_owned());
    }
    let pair = |(request, reply): (&u64, &u64)| (*request as usize, *reply as usize);
    Ok(requests.iter().zip(&replies).map(pair).collect())
}

fn write(groups: &[Vec<usize>], packets: usize) -> Vec<u8> {
    let mut writer = Writer::versioned();
    writer.count(8, packets).count(2, groups.len());
    for group in groups {
        writer.count(2, group.len());
        for position in group {
            writer.count(2, *position);
        }
    }
    writer.file
}
