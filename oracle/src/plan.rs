//! The plan file, and a plan made by the Rust from a catalog and a list.

use crate::bytes::{Reader, Writer};
use crate::catalog::Catalog;
use crate::list::{List, digits_within};
use crate::planner::reach;

pub const LIMIT: usize = 65_536;

/// A step of a path. `First` is the first of several indexes; the planner cuts it like `Index` and never writes it.
#[derive(Clone, Debug, PartialEq, Eq)]
pub enum Step {
    Member(String),
    Index(u32),
    First(u32),
}

/// A tag that a read serves, with its path; None for the value as read.
pub type Member = (String, Option<Vec<Step>>);

/// One read of a plan.
#[derive(Clone, Debug, PartialEq, Eq)]
pub struct PlannedRead {
    pub name: String,
    pub members: Vec<Member>,
}

/// The Rust's plan, as a file.
pub fn answer(catalog: &[u8], list: &[u8]) -> Result<Vec<u8>, String> {
    let catalog = Catalog::read(catalog)?.to_rust();
    Ok(write(&reach::plan(&List::read(list)?, &catalog)))
}

pub fn read(file: &[u8]) -> Result<Vec<PlannedRead>, String> {
    let mut reader = Reader::versioned(file, LIMIT).map_err(|e| format!("plan: {e}"))?;
    read_all(&mut reader).map_err(|e| format!("plan: {e}"))
}

pub fn write(reads: &[PlannedRead]) -> Vec<u8> {
    let mut writer = Writer::versioned();
    writer.count(2, reads.len());
    for read in reads {
        writer.text(&read.name).count(2, read.members.len());
        for (tag, path) in &read.members {
            writer.text(tag).number(1, path.is_some().into());
            if let Some(path) = path {
                write_steps(&mut writer, path);
            }
        }
    }
    writer.file
}

/// A path by itself: key count and keys, without a version.
pub fn read_path(file: &[u8]) -> Result<Vec<Step>, String> {
    let mut reader = Reader::new(file);
    let path = read_steps(&mut reader).map_err(|e| format!("path: {e}"))?;
    reader.end().map_err(|e| format!("path: {e}"))?;
    Ok(path)
}

pub fn write_path(path: &[Step]) -> Vec<u8> {
    let mut writer = Writer::default();
    write_steps(&mut writer, path);
    writer.file
}

fn read_all(reader: &mut Reader) -> Result<Vec<PlannedRead>, String> {
    let count = reader.count(2, 256)?;
    let reads = (0..count).map(|_| read_one(reader)).collect::<Result<_, _>>()?;
    reader.end()?;
    Ok(reads)
}

fn read_one(reader: &mut Reader) -> Result<PlannedRead, String> {
    let name = reader.text(136)?;
    if !digits_within(&name, 1_000_001) {
        return Err(format!("a number over 1,000,001 in {name:?}"));
    }
    let members = reader.count(2, 256)?;
    Ok(PlannedRead {
        name,
        members: (0..members)
            .map(|_| {
                let tag = reader.text(128)?;
                match reader.limited(1, 1)? {
                    0 => Ok((tag, None)),
                    _ => Ok((tag, Some(read_steps(reader)?))),
                }
            })
            .collect::<Result<_, String>>()?,
    })
}

fn read_steps(reader: &mut Reader) -> Result<Vec<Step>, String> {
    let count = reader.count(1, 64)?;
    (0..count)
        .map(|_| match reader.limited(1, 2)? {
            0 => Ok(Step::Member(reader.text(128)?)),
            1 => Ok(Step::Index(reader.number(4)? as u32)),
            _ => Ok(Step::First(reader.number(4)? as u32)),
        })
        .collect()
}

fn write_steps(writer: &mut Writer, path: &[Step]) {
    writer.count(1, path.len());
    for step in path {
        match step {
            Step::Member(name) => writer.number(1, 0).text(name),
            Step::Index(i) => writer.number(1, 1).number(4, u64::from(*i)),
            Step::First(i) => writer.number(1, 2).number(4, u64::from(*i)),
        };
    }
}
