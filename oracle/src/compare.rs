//! Holds the library against the Rust: what is returned, every byte of the output, and that nothing else was written,
//! each call made twice. A difference is told by the smallest case found that still differs.

use std::collections::BTreeMap;

use crate::guard::Lent;
use crate::kinds::{self, Answer, Fields, Kind};
use crate::library::{self, CALLS, Call, Library, Refusal};
use crate::random::Random;
use crate::refusals::SentBack;
use crate::table;

pub use crate::library::linked;

/// How many differences are shown for a call.
const SHOWN: usize = 3;
/// What the output holds before the first call and before the second.
const FILLS: [u8; 2] = [0xa5, 0x5a];
/// The room that inputs get which are refused.
const SOME: usize = 64;

/// A case with the room that its output gets, and whether its inputs were spoilt.
#[derive(Clone)]
struct Trial {
    fields: Fields,
    room: usize,
    spoilt: bool,
}

/// A case that no seed made: what it is, its inputs, and what is sent back for them. Where nothing is, the Rust has the
/// answer.
pub struct Fixed {
    pub what: String,
    pub fields: Fields,
    pub sent_back: Option<SentBack>,
}

/// What is right for some inputs, before the room of the output is looked at.
enum Outcome {
    Refused(Refusal),
    Answered(Vec<u8>),
}

/// What a call must return, and the bytes that it must write.
#[derive(Clone)]
struct Right {
    returned: u64,
    written: Vec<u8>,
}

/// A case in which the library did otherwise: what it is called if no seed made it, and what the library did.
struct Differing {
    what: String,
    trial: Trial,
    how: String,
}

/// What was found of one call.
#[derive(Default)]
pub struct Found {
    /// How many cases were put, by where they come from.
    pub cases: BTreeMap<&'static str, usize>,
    /// How many of them were accepted and answered as the Rust does, and how many of these had been spoilt.
    pub accepted: usize,
    pub spoilt: usize,
    /// How many were refused as they have to be, by number.
    pub refused: BTreeMap<u64, usize>,
    /// What the generated cases show.
    pub features: BTreeMap<&'static str, usize>,
    differing: Vec<Differing>,
}

pub const GENERATED: &str = "generated";

/// A table of the cases and, at its end, the differences; false if there are any.
pub fn compare(library: &Library, name: &str, count: usize, seed: u64) -> Result<(Vec<String>, bool), String> {
    let call = named(name)?;
    let mut found = Found::default();
    found.generated(library, call, count, seed, &mut |_, _| ())?;
    let mut lines = table::lines(name, count, &found.features);
    lines.push(format!("{} differences in {count} cases", found.differences()));
    lines.extend(found.told(library, call)?);
    Ok((lines, found.differences() == 0))
}

/// A call that the library has.
pub fn named(name: &str) -> Result<&'static Call, String> {
    CALLS.iter().find(|c| c.name == name).ok_or_else(|| format!("the library has no {name} yet"))
}

impl Found {
    /// Puts cases made from a seed; `progress` is told how many are done and how many of them differ.
    pub fn generated(
        &mut self,
        library: &Library,
        call: &Call,
        count: usize,
        seed: u64,
        progress: &mut dyn FnMut(usize, usize),
    ) -> Result<(), String> {
        let kind = kinds::named(call.kind)?;
        let mut random = Random::named(seed, call.name);
        for done in 1..=count {
            let (fields, spoilt) = inputs(&mut random, kind, call);
            let outcome = outcome(kind, call, &fields)?;
            let trial = Trial { fields, room: room(&mut random, &outcome), spoilt };
            table::tally(&mut self.features, shown(kind, call, &trial, &outcome));
            let right = Right::of(call, outcome, trial.room);
            self.put(library, call, (GENERATED, ""), trial, &right);
            progress(done, self.differences());
        }
        Ok(())
    }

    /// Puts cases that no seed made. One that is accepted gets just the room that it needs and, if the call writes, a
    /// byte less. Accepted and refused ones are counted under a name each.
    pub fn fixed(
        &mut self,
        library: &Library,
        call: &Call,
        cases: Vec<Fixed>,
        [accepted, refused]: [&'static str; 2],
    ) -> Result<(), String> {
        let kind = kinds::named(call.kind)?;
        for Fixed { what, fields, sent_back } in cases {
            if let Some(sent_back) = sent_back {
                let right = Right { returned: library::returned(sent_back), written: vec![] };
                let trial = Trial { fields, room: SOME, spoilt: false };
                self.put(library, call, (refused, &what), trial, &right);
                continue;
            }
            let answer = answer(kind, call, &fields).map_err(|e| format!("{what}: {e}"))?;
            let room = answer.len();
            let trial = Trial { fields, room, spoilt: false };
            if call.writes {
                let short = Trial { room: room - 1, ..trial.clone() };
                let right = Right::of(call, Outcome::Answered(answer.clone()), short.room);
                self.put(library, call, (refused, &format!("{what}, one byte short")), short, &right);
            }
            let right = Right::of(call, Outcome::Answered(answer), room);
            self.put(library, call, (accepted, &what), trial, &right);
        }
        Ok(())
    }

    fn put(&mut self, library: &Library, call: &Call, (from, what): (&'static str, &str), trial: Trial, right: &Right) {
        *self.cases.entry(from).or_default() += 1;
        match difference(library, call, &trial, right) {
            Some(how) => self.differing.push(Differing { what: what.to_owned(), trial, how }),
            None if right.returned >> 56 == 0 => {
                self.accepted += 1;
                self.spoilt += usize::from(trial.spoilt);
            }
            None => *self.refused.entry(right.returned >> 56).or_default() += 1,
        }
    }

    pub fn differences(&self) -> usize {
        self.differing.len()
    }

    /// Some of the differences, each by the smallest case that still shows it.
    pub fn told(&self, library: &Library, call: &Call) -> Result<Vec<String>, String> {
        let kind = kinds::named(call.kind)?;
        Ok(self.differing.iter().take(SHOWN).flat_map(|differing| differing.told(library, kind, call)).collect())
    }
}

/// What of the Rust's answer the call gives.
fn answer(kind: &Kind, call: &Call, fields: &Fields) -> Answer {
    (kind.answer)(fields).map(call.part)
}

fn outcome(kind: &Kind, call: &Call, fields: &Fields) -> Result<Outcome, String> {
    match (call.refusal)(fields) {
        Some(refusal) => Ok(Outcome::Refused(refusal)),
        None => answer(kind, call, fields).map(Outcome::Answered),
    }
}

/// Generated inputs, and whether they were spoilt.
fn inputs(random: &mut Random, kind: &Kind, call: &Call) -> (Fields, bool) {
    let mut fields = call.generate.unwrap_or(kind.generate)(random);
    let spoilt = random.chance(call.spoilt);
    if spoilt {
        (call.spoil)(random, &mut fields);
    }
    (fields, spoilt)
}

/// Just enough room, more, or less.
fn room(random: &mut Random, outcome: &Outcome) -> usize {
    let needed = match outcome {
        Outcome::Refused(_) => SOME,
        Outcome::Answered(answer) => answer.len(),
    };
    let room = match random.below(8) {
        0..4 => needed,
        4 | 5 => needed + random.within(1, 80),
        6 => random.below(needed + 1),
        _ => needed.saturating_sub(1),
    };
    if random.chance(2) { 0 } else { room }
}

fn shown(kind: &Kind, call: &Call, trial: &Trial, outcome: &Outcome) -> Vec<&'static str> {
    let answer = match outcome {
        Outcome::Refused(refusal) => return vec![refusal.cause],
        Outcome::Answered(answer) => answer,
    };
    let mut features = (kind.features)(&trial.fields, answer);
    if call.writes {
        features.when(trial.room == answer.len(), "room: just enough");
        features.when(trial.room > answer.len(), "room: more than enough");
        features.when(trial.room < answer.len(), "room: too little");
        features.when(trial.room + 1 == answer.len(), "room: one byte short");
        features.when(trial.room == 0, "room: none");
    }
    features.when(trial.spoilt, "spoilt, and not refused");
    features.0
}

impl Right {
    /// What is right with this room.
    fn of(call: &Call, outcome: Outcome, room: usize) -> Right {
        let returning = |returned| Right { returned, written: vec![] };
        match outcome {
            Outcome::Refused(refusal) => returning(refusal.returned()),
            Outcome::Answered(answer) if !call.writes => {
                returning(answer.iter().fold(0, |n, b| n << 8 | u64::from(*b)))
            }
            Outcome::Answered(answer) if answer.len() > room => returning(library::returned((9, answer.len() as u64))),
            Outcome::Answered(answer) => Right { returned: answer.len() as u64, written: answer },
        }
    }
}

/// What the library does otherwise, if anything, at the first call or at the second.
fn difference(library: &Library, call: &Call, trial: &Trial, right: &Right) -> Option<String> {
    FILLS.iter().find_map(|fill| called(library, call, trial, *fill, right).err())
}

/// What it does otherwise than the Rust and the document have it; nothing if the Rust has no answer.
fn wrong(library: &Library, kind: &Kind, call: &Call, trial: &Trial) -> Option<String> {
    let outcome = outcome(kind, call, &trial.fields).ok()?;
    difference(library, call, trial, &Right::of(call, outcome, trial.room))
}

/// One call, with an output that holds the fill everywhere; what is not written must stay so.
fn called(library: &Library, call: &Call, trial: &Trial, fill: u8, right: &Right) -> Result<(), String> {
    let mut out = Lent::new(&vec![fill; trial.room], !fill);
    let got = (call.call)(library, &trial.fields, &mut out)?;
    if !out.guarded() {
        return Err("bytes beside the output were changed".to_owned());
    }
    if got != right.returned {
        return Err(format!("returned {}, not {}", number(got), number(right.returned)));
    }
    let content = right.written.iter().chain(std::iter::repeat(&fill));
    match out.content().iter().zip(content).enumerate().find(|(_, (a, b))| a != b) {
        Some((place, (wrong, right))) => Err(format!("byte {place} of the output is {wrong}, not {right}")),
        None => Ok(()),
    }
}

fn number(returned: u64) -> String {
    format!("{} with number {}", returned & ((1 << 56) - 1), returned >> 56)
}

impl Differing {
    /// The smallest case that still differs, and how. What differs from an answer by hand alone stays as it is.
    fn told(&self, library: &Library, kind: &Kind, call: &Call) -> Vec<String> {
        let (trial, how) = match wrong(library, kind, call, &self.trial) {
            Some(_) => {
                let smallest = shrink(library, kind, call, self.trial.clone());
                let how = wrong(library, kind, call, &smallest).unwrap_or_default();
                (smallest, how)
            }
            None => (self.trial.clone(), self.how.clone()),
        };
        let what = if self.what.is_empty() { String::new() } else { format!(" at {}", self.what) };
        let mut lines = vec![format!("{} differs{what}: {how}; room {}", call.name, trial.room)];
        for (what, field) in kind.inputs.iter().zip(&trial.fields) {
            let hex: String = field.iter().map(|b| format!("{b:02x}")).collect();
            lines.push(format!("  {what} {hex} {:?}", String::from_utf8_lossy(field)));
        }
        lines
    }
}

fn shrink(library: &Library, kind: &Kind, call: &Call, mut trial: Trial) -> Trial {
    loop {
        let mut found = None;
        for fields in (kind.smaller)(&trial.fields) {
            let candidates = rooms(kind, call, &fields, trial.room);
            let smaller = candidates.into_iter().map(|room| Trial { fields: fields.clone(), room, ..trial });
            found = smaller.into_iter().find(|t| wrong(library, kind, call, t).is_some());
            if found.is_some() {
                break;
            }
        }
        match found {
            Some(smaller) => trial = smaller,
            None => return trial,
        }
    }
}

/// The room as it was, and just enough for the smaller case.
fn rooms(kind: &Kind, call: &Call, fields: &Fields, room: usize) -> Vec<usize> {
    let enough = answer(kind, call, fields).map(|a| a.len());
    enough.into_iter().chain([room]).collect()
}

#[cfg(test)]
#[path = "compare_tests.rs"]
pub(crate) mod tests;
