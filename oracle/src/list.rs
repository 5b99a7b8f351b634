//! The list file: what is asked of a plan.

use crate::bytes::{Reader, Writer};

pub const LIMIT: usize = 16_384;

/// The tags wanted, and how they may be grouped.
#[derive(Clone, Debug, Default, PartialEq, Eq)]
pub struct List {
    pub whole_max: u32,
    pub budget: u16,
    pub no_group: Vec<String>,
    pub together: Vec<String>,
    pub tags: Vec<String>,
}

impl List {
    pub fn read(file: &[u8]) -> Result<Self, String> {
        let mut reader = Reader::versioned(file, LIMIT).map_err(|e| format!("list: {e}"))?;
        read_all(&mut reader).map_err(|e| format!("list: {e}"))
    }

    pub fn write(&self) -> Vec<u8> {
        let mut writer = Writer::versioned();
        writer.number(4, self.whole_max.into()).number(2, self.budget.into());
        writer.texts(&self.no_group).texts(&self.together).texts(&self.tags);
        writer.file
    }
}

fn read_all(reader: &mut Reader) -> Result<List, String> {
    let list = List {
        whole_max: reader.number(4)? as u32,
        budget: reader.number(2)? as u16,
        no_group: reader.texts(256, 136)?,
        together: reader.texts(64, 128)?,
        tags: reader.texts(256, 128)?,
    };
    reader.end()?;
    match list.tags.iter().find(|tag| !digits_within(tag, 1_000_000)) {
        Some(tag) => Err(format!("an index over 1,000,000 in {tag:?}")),
        None => Ok(list),
    }
}

/// Whether all digits straight after `[`, `,` or `{` make numbers of at most `most`.
pub fn digits_within(name: &str, most: u64) -> bool {
    name.split(['[', ',', '{']).skip(1).all(|rest| {
        let digits = rest.bytes().take_while(u8::is_ascii_digit);
        let number = digits.fold(0u64, |n, d| (n * 10 + u64::from(d - b'0')).min(1 << 50));
        number <= most
    })
}
