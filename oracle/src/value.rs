//! The value file and the Rust's `dig` on it. Each value remembers the place of its length field, so that a cut can
//! be told by where it stands.

use ciplink::{Placed, Value};
use indexmap::IndexMap;

use crate::bytes::{Reader, Writer};
use crate::plan::read_path;
use crate::planner::reach;

pub const LIMIT: usize = 65_536;
pub const LEVELS: usize = 40;

/// A value to be written: places come from writing it.
#[derive(Clone, Debug, PartialEq, Eq)]
pub enum Plain {
    Leaf(Vec<u8>),
    Array(Vec<Plain>),
    Struct(Vec<(String, Plain)>),
    Text(Vec<u8>),
}

/// The place of the cut's length field in the value file, 0 for not there, in 8 bytes.
pub fn dig(value: &[u8], path: &[u8]) -> Result<Vec<u8>, String> {
    let cut = reach::dig(&read(value)?, &read_path(path)?);
    let place = cut.map_or(0, |v| v.place().expect("every value of a file has a place"));
    Ok((place as u64).to_be_bytes().to_vec())
}

pub fn read(file: &[u8]) -> Result<Value, String> {
    let mut reader = Reader::versioned(file, LIMIT).map_err(|e| format!("value: {e}"))?;
    let value = read_value(&mut reader, 1).map_err(|e| format!("value: {e}"))?;
    reader.end().map_err(|e| format!("value: {e}"))?;
    Ok(value)
}

pub fn write(value: &Plain) -> Vec<u8> {
    let mut writer = Writer::versioned();
    write_value(&mut writer, value);
    writer.file
}

/// A value, from its length field on; `level` is 1 for the outermost.
pub fn read_value(reader: &mut Reader, level: usize) -> Result<Value, String> {
    let place = reader.place;
    let length = reader.number(4)? as usize;
    if level > LEVELS {
        return Err(format!("the value at {place} is over {LEVELS} levels deep"));
    }
    if length == 0 || length > reader.left() {
        return Err(format!("the value at {place} runs past what it stands in"));
    }
    let end = reader.place + length;
    let kind = reader.limited(1, 3)?;
    let value = match kind {
        1 => Value::Array(placed(place, read_items(reader, level)?)),
        2 => Value::Struct(placed(place, read_members(reader, level)?)),
        _ => {
            let bytes = placed(place, reader.take(length - 1)?.to_vec());
            if kind == 0 { Value::Leaf(bytes) } else { Value::Text(bytes) }
        }
    };
    match reader.place == end {
        true => Ok(value),
        false => Err(format!("the value at {place} does not end with its fields")),
    }
}

fn placed<T>(place: usize, inner: T) -> Placed<T> {
    Placed { place, inner }
}

fn read_items(reader: &mut Reader, level: usize) -> Result<Vec<Value>, String> {
    let count = reader.number(2)?;
    (0..count).map(|_| read_value(reader, level + 1)).collect()
}

fn read_members(reader: &mut Reader, level: usize) -> Result<IndexMap<String, Value>, String> {
    let count = reader.number(2)?;
    let mut members = IndexMap::new();
    for _ in 0..count {
        let name = reader.text(128)?;
        let value = read_value(reader, level + 1)?;
        if members.insert(name.clone(), value).is_some() {
            return Err(format!("two members {name:?} in one struct"));
        }
    }
    Ok(members)
}

/// A value, from its length field on.
pub fn write_value(writer: &mut Writer, value: &Plain) {
    let start = writer.file.len();
    writer.number(4, 0);
    match value {
        Plain::Leaf(bytes) => write_free(writer, 0, bytes),
        Plain::Text(bytes) => write_free(writer, 3, bytes),
        Plain::Array(items) => {
            writer.number(1, 1).count(2, items.len());
            for item in items {
                write_value(writer, item);
            }
        }
        Plain::Struct(members) => {
            writer.number(1, 2).count(2, members.len());
            for (name, member) in members {
                writer.text(name);
                write_value(writer, member);
            }
        }
    }
    let length = (writer.file.len() - start - 4) as u32;
    writer.file[start..start + 4].copy_from_slice(&length.to_be_bytes());
}

fn write_free(writer: &mut Writer, kind: u64, bytes: &[u8]) {
    writer.number(1, kind);
    writer.file.extend_from_slice(bytes);
}
