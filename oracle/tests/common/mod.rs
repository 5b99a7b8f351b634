//! Plans, groups and sizes as lines that are easy to read in a test. All of them go through the files.
#![allow(dead_code)]

use oracle::bytes::Reader;
use oracle::catalog::Catalog;
use oracle::list::List;
use oracle::plan::{self, PlannedRead, Step};
use oracle::{groups, lookup};

/// The Rust's plan, a line a read: its name, then each tag with its path.
pub fn plan_lines(catalog: &Catalog, list: &List) -> Vec<String> {
    reads(catalog, list).iter().map(line).collect()
}

pub fn reads(catalog: &Catalog, list: &List) -> Vec<PlannedRead> {
    let file = plan::answer(&catalog.write(), &list.write()).expect("the files are accepted");
    plan::read(&file).expect("a plan that is written can be read")
}

fn line(read: &PlannedRead) -> String {
    let members: Vec<String> = read.members.iter().map(|(tag, path)| format!("{tag}{}", arrow(path))).collect();
    format!("{} <- {}", read.name, members.join(", "))
}

fn arrow(path: &Option<Vec<Step>>) -> String {
    let step = |step: &Step| match step {
        Step::Member(name) => format!(".{name}"),
        Step::Index(i) | Step::First(i) => format!("[{i}]"),
    };
    path.as_ref().map_or(String::new(), |path| format!(" at {}", path.iter().map(step).collect::<String>()))
}

/// Request and reply of a read.
pub fn sizes(catalog: &Catalog, name: &str) -> (u64, u64) {
    let answer = lookup::sizes(&catalog.write(), name.as_bytes()).expect("the catalog is accepted");
    let mut reader = Reader::new(&answer);
    (reader.number(8).expect("a request"), reader.number(8).expect("a reply"))
}

/// Packet count and groups of a groups file.
pub fn groups_of(file: &[u8]) -> (u64, Vec<Vec<u64>>) {
    let mut reader = Reader::versioned(file, usize::MAX).expect("a groups file");
    let packets = reader.number(8).expect("a packet count");
    let count = reader.number(2).expect("a group count");
    let groups = (0..count)
        .map(|_| {
            let reads = reader.number(2).expect("a read count");
            (0..reads).map(|_| reader.number(2).expect("a position")).collect()
        })
        .collect();
    reader.end().expect("nothing over");
    (packets, groups)
}

/// Packets and groups of rows of (request, reply).
pub fn chunks(rows: &[(u64, u64)], budget: u16) -> (u64, Vec<Vec<u64>>) {
    let (requests, replies): (Vec<u64>, Vec<u64>) = rows.iter().copied().unzip();
    let (requests, replies) = (oracle::bytes::table_bytes(&requests), oracle::bytes::table_bytes(&replies));
    let packets = groups::packets(&requests, &replies, budget).expect("the tables are accepted");
    let file = groups::chunks(&requests, &replies, budget).expect("the tables are accepted");
    let (count, groups) = groups_of(&file);
    assert_eq!(packets, count.to_be_bytes(), "packets is the count of chunks");
    (count, groups)
}
