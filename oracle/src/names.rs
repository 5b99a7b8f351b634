//! The lexical calls on a name: its tokens, what is left without brackets and braces, and its range. The first and
//! the last have layouts of their own, described at each.

use crate::bytes::Writer;
use crate::planner::reach;
use crate::plc;

/// The longest name that `tokens` and `range` take.
pub const LONGEST: usize = 136;

/// The token count (0 for no tokens), then for each token the place where it ends, its number of indexes (0 for a
/// name) and each index in 8 bytes.
pub fn tokens(name: &[u8]) -> Result<Vec<u8>, String> {
    let tokens = reach::tokens(&short(name)?).unwrap_or_default();
    let mut writer = Writer::default();
    writer.count(1, tokens.len());
    for token in tokens {
        writer.count(1, token.end).count(1, token.indexes.len());
        for index in token.indexes {
            writer.count(8, index);
        }
    }
    Ok(writer.file)
}

pub fn strip(name: &[u8]) -> Result<Vec<u8>, String> {
    Ok(plc::reach::strip(&text(name)?).into_bytes())
}

/// Byte 0 for none, or byte 1, the length of the base in one byte and the count in 8.
pub fn range(name: &[u8]) -> Result<Vec<u8>, String> {
    let name = short(name)?;
    let mut writer = Writer::default();
    match reach::range(&name) {
        None => writer.number(1, 0),
        Some((base, count)) => writer.number(1, 1).count(1, base.len()).count(8, count),
    };
    Ok(writer.file)
}

/// The name as a text; only bytes 32 to 126 are taken.
pub fn text(name: &[u8]) -> Result<String, String> {
    match name.iter().all(|b| (32..=126).contains(b)) {
        true => Ok(name.iter().map(|b| char::from(*b)).collect()),
        false => Err("a name has bytes 32 to 126 only".to_owned()),
    }
}

fn short(name: &[u8]) -> Result<String, String> {
    match name.len() > LONGEST {
        true => Err(format!("a name has at most {LONGEST} bytes")),
        false => text(name),
    }
}
