//! What is sent back for a bad input, worked out for any input from the table of the port's document: a number, and a
//! place or a limit. The Rust knows no refusals and the oracle's readers tell only whether a file is taken; the files
//! of `damaged/`, whose answers are written down by hand, hold this page to the document.

use std::collections::{HashMap, HashSet};
use std::ops::Range;

use crate::catalog::{self, MOST_MEMBERS, MOST_TAGS, MOST_TYPES, STRUCT, TEXT};
use crate::names::LONGEST;
use crate::value::LEVELS;
use crate::{list, plan, results, value};

/// A refusal's number and what it returns.
pub type SentBack = (u8, u64);

type Checked<T> = Result<T, SentBack>;

/// The most listed types in a chain.
const DEEPEST: usize = 16;

pub fn catalog(file: &[u8]) -> Option<SentBack> {
    check_catalog(file).err()
}

pub fn list(file: &[u8]) -> Option<SentBack> {
    check_list(file).err()
}

pub fn plan(file: &[u8]) -> Option<SentBack> {
    check_plan(file).err()
}

pub fn results(file: &[u8]) -> Option<SentBack> {
    check_results(file).err()
}

pub fn value(file: &[u8]) -> Option<SentBack> {
    check_value(file).err()
}

/// A path has no version, and no limit to its bytes.
pub fn path(bytes: &[u8]) -> Option<SentBack> {
    let mut scan = Scan::new(bytes);
    scan.keys().and_then(|()| scan.ends()).err()
}

/// A type of a catalog: the place of its name, its name, and the types of its struct members.
struct Holder<'a> {
    place: usize,
    name: &'a [u8],
    held: Vec<&'a [u8]>,
}

fn check_catalog(file: &[u8]) -> Checked<()> {
    let mut scan = Scan::versioned(file, catalog::LIMIT)?;
    let tags = scan.number_within(2, MOST_TAGS as u64, 5)?;
    let types = scan.number_within(2, MOST_TYPES as u64, 5)?;
    for _ in 0..tags {
        scan.node(0)?;
    }
    let mut holders = Vec::new();
    for row in 0..types as usize {
        holders.push(scan.holder(2 + row)?);
    }
    scan.ends()?;
    scan.alike()?;
    nested(&holders)
}

/// The first type in the file that starts a chain of more than 16. Round by round each type learns how long a chain it
/// starts, up to one more than is allowed.
fn nested(holders: &[Holder]) -> Checked<()> {
    let places: HashMap<&[u8], usize> = holders.iter().enumerate().map(|(n, h)| (h.name, n)).collect();
    let held = |h: &Holder| h.held.iter().filter_map(|name| places.get(name).copied()).collect::<Vec<_>>();
    let held: Vec<Vec<usize>> = holders.iter().map(held).collect();
    let mut chains = vec![1; holders.len()];
    for _ in 0..DEEPEST {
        let longest = |row: &Vec<usize>| 1 + row.iter().map(|n| chains[*n]).max().unwrap_or(0);
        chains = held.iter().map(longest).collect();
    }
    match chains.iter().position(|length| *length > DEEPEST) {
        Some(first) => Err((7, holders[first].place as u64)),
        None => Ok(()),
    }
}

fn check_list(file: &[u8]) -> Checked<()> {
    let mut scan = Scan::versioned(file, list::LIMIT)?;
    scan.number(4)?;
    scan.number(2)?;
    for (most, longest) in [(256, LONGEST), (64, TEXT)] {
        for _ in 0..scan.number_within(2, most, 5)? {
            scan.text(longest)?;
        }
    }
    for _ in 0..scan.number_within(2, 256, 5)? {
        let tag = scan.text(TEXT)?;
        scan.digits(tag, 1_000_000)?;
    }
    scan.ends()
}

fn check_plan(file: &[u8]) -> Checked<()> {
    let mut scan = Scan::versioned(file, plan::LIMIT)?;
    for _ in 0..scan.number_within(2, 256, 5)? {
        let name = scan.text(LONGEST)?;
        scan.digits(name, 1_000_001)?;
        for _ in 0..scan.number_within(2, 256, 5)? {
            scan.text(TEXT)?;
            if scan.number_within(1, 1, 4)? == 1 {
                scan.keys()?;
            }
        }
    }
    scan.ends()
}

fn check_results(file: &[u8]) -> Checked<()> {
    let mut scan = Scan::versioned(file, results::LIMIT)?;
    for _ in 0..scan.number(2)? {
        if scan.number_within(1, 2, 4)? == 0 {
            scan.value(1)?;
        }
    }
    scan.ends()?;
    scan.alike()
}

fn check_value(file: &[u8]) -> Checked<()> {
    let mut scan = Scan::versioned(file, value::LIMIT)?;
    scan.value(1)?;
    scan.ends()?;
    scan.alike()
}

/// An input that is looked at from front to back.
struct Scan<'a> {
    file: &'a [u8],
    place: usize,
    /// Where the value ends that is being looked at, or the file.
    end: usize,
    /// Names in the file's order, with the row in which no two may be alike and their places.
    names: Vec<(usize, Vec<u8>, usize)>,
    rows: usize,
}

impl<'a> Scan<'a> {
    fn new(file: &'a [u8]) -> Self {
        Scan { file, place: 0, end: file.len(), names: Vec::new(), rows: 0 }
    }

    fn versioned(file: &'a [u8], limit: usize) -> Checked<Self> {
        match file.first() {
            _ if file.len() > limit => Err((1, limit as u64)),
            Some(1) => Ok(Scan { place: 1, ..Scan::new(file) }),
            _ => Err((2, 0)),
        }
    }

    fn left(&self) -> usize {
        self.end - self.place
    }

    fn number(&mut self, width: usize) -> Checked<u64> {
        if width > self.left() {
            return Err((3, self.place as u64));
        }
        let bytes = &self.file[self.place..self.place + width];
        self.place += width;
        Ok(bytes.iter().fold(0, |n, b| n << 8 | u64::from(*b)))
    }

    /// A field that is refused with a number if it is larger than allowed.
    fn number_within(&mut self, width: usize, most: u64, refusal: u8) -> Checked<u64> {
        let start = self.place as u64;
        match self.number(width)? {
            n if n > most => Err((refusal, start)),
            n => Ok(n),
        }
    }

    /// Where a text's bytes stand. Its end is looked at first, then its bytes, then its length.
    fn text(&mut self, longest: usize) -> Checked<Range<usize>> {
        let start = self.place as u64;
        let length = self.number(1)? as usize;
        if length > self.left() {
            return Err((3, start));
        }
        let bytes = self.place..self.place + length;
        if let Some(bad) = bytes.clone().find(|place| !(32..=126).contains(&self.file[*place])) {
            return Err((4, bad as u64));
        }
        if length > longest {
            return Err((5, start));
        }
        self.place = bytes.end;
        Ok(bytes)
    }

    /// A text of which no other in its row may be alike, once `fold` has been at it.
    fn name(&mut self, row: usize, fold: fn(&[u8]) -> Vec<u8>) -> Checked<Range<usize>> {
        let start = self.place;
        let bytes = self.text(TEXT)?;
        self.names.push((row, fold(&self.file[bytes.clone()]), start));
        Ok(bytes)
    }

    /// The digits straight after `[`, `,` or `{`, however many.
    fn digits(&self, text: Range<usize>, most: u64) -> Checked<()> {
        for first in text.clone().filter(|place| b"[,{".contains(&self.file[*place])).map(|place| place + 1) {
            let digits = self.file[first..text.end].iter().take_while(|byte| byte.is_ascii_digit());
            let number = digits.fold(0, |n: u64, digit| n.saturating_mul(10).saturating_add(u64::from(digit - b'0')));
            if number > most {
                return Err((8, first as u64));
            }
        }
        Ok(())
    }

    fn ends(&self) -> Checked<()> {
        match self.left() {
            0 => Ok(()),
            _ => Err((3, self.place as u64)),
        }
    }

    /// A node whose name stands in a row: its type's name and its kind.
    fn node(&mut self, row: usize) -> Checked<(Range<usize>, u8)> {
        self.name(row, <[u8]>::to_ascii_lowercase)?;
        let type_name = self.text(TEXT)?;
        let kind = self.number_within(1, 2, 4)? as u8;
        for _ in 0..self.number_within(1, 3, 5)? {
            self.number_within(4, 1_000_000, 5)?;
        }
        for width in [4, 2] {
            if self.number_within(1, 1, 4)? == 1 {
                self.number(width)?;
            }
        }
        Ok((type_name, kind))
    }

    /// A type whose members stand in a row of their own; row 1 has the types' names.
    fn holder(&mut self, row: usize) -> Checked<Holder<'a>> {
        let place = self.place;
        let name = self.name(1, <[u8]>::to_vec)?;
        self.number(2)?;
        self.number_within(1, 2, 4)?;
        let mut held = Vec::new();
        for _ in 0..self.number_within(2, MOST_MEMBERS as u64, 5)? {
            let (type_name, kind) = self.node(row)?;
            if kind == STRUCT {
                held.push(&self.file[type_name]);
            }
        }
        Ok(Holder { place, name: &self.file[name], held })
    }

    fn keys(&mut self) -> Checked<()> {
        for _ in 0..self.number_within(1, 64, 5)? {
            match self.number_within(1, 2, 4)? {
                0 => self.text(TEXT).map(drop)?,
                _ => self.number(4).map(drop)?,
            }
        }
        Ok(())
    }

    /// A value: its end is looked at first, then its level, then what it holds.
    fn value(&mut self, level: usize) -> Checked<()> {
        let start = self.place as u64;
        let length = self.number(4)? as usize;
        if length > self.left() {
            return Err((3, start));
        }
        if level > LEVELS {
            return Err((10, start));
        }
        let outer = std::mem::replace(&mut self.end, self.place + length);
        match self.number_within(1, 3, 4)? {
            1 => self.items(level)?,
            2 => self.members(level)?,
            _ => self.place = self.end,
        }
        self.ends()?;
        self.end = outer;
        Ok(())
    }

    fn items(&mut self, level: usize) -> Checked<()> {
        for _ in 0..self.number(2)? {
            self.value(level + 1)?;
        }
        Ok(())
    }

    fn members(&mut self, level: usize) -> Checked<()> {
        let row = self.rows;
        self.rows += 1;
        for _ in 0..self.number(2)? {
            self.name(row, <[u8]>::to_vec)?;
            self.value(level + 1)?;
        }
        Ok(())
    }

    /// The first name in the file that is alike to an earlier one of its row.
    fn alike(&self) -> Checked<()> {
        let mut seen = HashSet::new();
        match self.names.iter().find(|(row, name, _)| !seen.insert((row, name))) {
            Some((_, _, place)) => Err((6, *place as u64)),
            None => Ok(()),
        }
    }
}

#[cfg(test)]
#[path = "refusals_tests.rs"]
mod tests;
