//! Why a call was refused.

use std::error::Error;
use std::fmt;

/// Why a call was refused, with what the cause returns. A place counts bytes from the start of the input that is bad; inputs
/// are checked in the order of the parameters, and the first bad one is told.
///
/// ```
/// use ruvangixo::Refusal;
///
/// let refusal = ruvangixo::dig(&[1, 0, 0, 0, 9, 0], &[0]).unwrap_err();
/// assert_eq!(refusal, Refusal::OutOfFile { place: 1 });
/// assert_eq!((refusal.number(), refusal.returned()), (3, 1));
/// assert_eq!(refusal.to_string(), "a field runs past the end of its file, or bytes are left over: look at byte 1");
/// ```
#[derive(Clone, Copy, Debug, PartialEq, Eq, Hash)]
pub enum Refusal {
    /// 1: a file is longer than it may be.
    FileTooLong {
        /// The most bytes that it may have: 16,384 for a list, 65,536 for any other file.
        limit: u64,
    },
    /// 2: a file is empty, or its first byte is not version 1. The place, 0, is always the same.
    BadVersion,
    /// 3: a field runs past the end of its file, or bytes are left over behind the last one.
    OutOfFile {
        /// Where the field starts, or the first byte too many.
        place: u64,
    },
    /// 4: a byte of a text is outside 32 to 126, or a kind, AOI, flag, key or status byte is none that there is.
    NotAllowed {
        /// That byte.
        place: u64,
    },
    /// 5: a count, length, dimension or size is over its limit.
    OverLimit {
        /// Where the field starts; in a table of sizes the position of the entry, or 256 where there are more entries.
        place: u64,
    },
    /// 6: two tags, or two members of a type, differ at most in case; or two types, or two members of a value, have one name.
    NamesAlike {
        /// The first name that has such a name before it.
        place: u64,
    },
    /// 7: types hold one another more than 16 deep, or in a circle.
    TypesTooDeep {
        /// The name of the first type in the file from which that is so.
        place: u64,
    },
    /// 8: a number behind `[`, `,` or `{` is above 1,000,000 in a listed tag, or above 1,000,001 in the name of a plan's read.
    IndexTooLarge {
        /// The first digit.
        place: u64,
    },
    /// 9: the answer does not fit into the buffer.
    OutputTooShort {
        /// The bytes that it has.
        needed: u64,
    },
    /// 10: values hold one another more than 40 deep.
    TooManyLevels {
        /// The first value on level 41.
        place: u64,
    },
    /// 11: there are not as many results as reads, or not as many replies as requests.
    CountsDiffer {
        /// The smaller of the two counts.
        smaller: u64,
    },
}

impl Refusal {
    /// The number of the cause, 1 to 11, as the C functions return it in the top byte.
    ///
    /// ```
    /// assert_eq!(ruvangixo::Refusal::OutputTooShort { needed: 14 }.number(), 9);
    /// ```
    #[must_use]
    pub fn number(self) -> u8 {
        match self {
            Refusal::FileTooLong { .. } => 1,
            Refusal::BadVersion => 2,
            Refusal::OutOfFile { .. } => 3,
            Refusal::NotAllowed { .. } => 4,
            Refusal::OverLimit { .. } => 5,
            Refusal::NamesAlike { .. } => 6,
            Refusal::TypesTooDeep { .. } => 7,
            Refusal::IndexTooLarge { .. } => 8,
            Refusal::OutputTooShort { .. } => 9,
            Refusal::TooManyLevels { .. } => 10,
            Refusal::CountsDiffer { .. } => 11,
        }
    }

    /// What the cause returns: a place, a limit, a count or the bytes needed.
    ///
    /// ```
    /// assert_eq!(ruvangixo::Refusal::OutputTooShort { needed: 14 }.returned(), 14);
    /// assert_eq!(ruvangixo::Refusal::BadVersion.returned(), 0);
    /// ```
    #[must_use]
    pub fn returned(self) -> u64 {
        match self {
            Refusal::BadVersion => 0,
            Refusal::FileTooLong { limit: n }
            | Refusal::OutOfFile { place: n }
            | Refusal::NotAllowed { place: n }
            | Refusal::OverLimit { place: n }
            | Refusal::NamesAlike { place: n }
            | Refusal::TypesTooDeep { place: n }
            | Refusal::IndexTooLarge { place: n }
            | Refusal::OutputTooShort { needed: n }
            | Refusal::TooManyLevels { place: n }
            | Refusal::CountsDiffer { smaller: n } => n,
        }
    }

    /// What a call returned: its top byte is the refusal's number, the others are what is returned.
    pub(crate) fn of(answer: u64) -> Result<u64, Refusal> {
        let n = answer & ((1 << 56) - 1);
        Err(match answer >> 56 {
            0 => return Ok(n),
            1 => Refusal::FileTooLong { limit: n },
            2 => Refusal::BadVersion,
            3 => Refusal::OutOfFile { place: n },
            4 => Refusal::NotAllowed { place: n },
            5 => Refusal::OverLimit { place: n },
            6 => Refusal::NamesAlike { place: n },
            7 => Refusal::TypesTooDeep { place: n },
            8 => Refusal::IndexTooLarge { place: n },
            9 => Refusal::OutputTooShort { needed: n },
            10 => Refusal::TooManyLevels { place: n },
            11 => Refusal::CountsDiffer { smaller: n },
            other => unreachable!("the library is proved to refuse by the numbers 1 to 11, and not by {other}"),
        })
    }
}

impl fmt::Display for Refusal {
    fn fmt(&self, f: &mut fmt::Formatter<'_>) -> fmt::Result {
        match self {
            Refusal::FileTooLong { limit } => write!(f, "a file is too long: it may have {limit} bytes"),
            Refusal::BadVersion => write!(f, "a file does not start with version 1: look at byte 0"),
            Refusal::OutOfFile { place } => {
                write!(f, "a field runs past the end of its file, or bytes are left over: look at byte {place}")
            }
            Refusal::NotAllowed { place } => write!(f, "a byte is not allowed where it stands: look at byte {place}"),
            Refusal::OverLimit { place } => {
                write!(f, "a count, length, dimension or size is over its limit: look at byte or entry {place}")
            }
            Refusal::NamesAlike { place } => {
                write!(f, "a name was used before, perhaps in other letters: rename the one at byte {place}")
            }
            Refusal::TypesTooDeep { place } => {
                write!(f, "types hold one another over 16 deep or in a circle, from the one named at byte {place}")
            }
            Refusal::IndexTooLarge { place } => {
                write!(f, "an index or a count in a name is too large: look at the digits from byte {place}")
            }
            Refusal::OutputTooShort { needed } => write!(f, "the buffer is too short: the answer has {needed} bytes"),
            Refusal::TooManyLevels { place } => {
                write!(f, "values hold one another over 40 deep: the first too deep is at byte {place}")
            }
            Refusal::CountsDiffer { smaller } => {
                write!(f, "two counts that have to be equal differ: the smaller one is {smaller}")
            }
        }
    }
}

impl Error for Refusal {}
