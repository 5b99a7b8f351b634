//! One call with its inputs on both sides: the check of the port's answer, and the times of both by turns.

use std::hint::black_box;
use std::time::Instant;

use oracle::library::Library;

/// The most bytes that an answer of these cases has.
const ROOM: usize = 1 << 17;

/// What the port has to give: a file in its output, or a number.
pub enum Right {
    Written(Vec<u8>),
    Returned(u64),
}

/// What the Rust's time holds: the call alone, on what is decoded already, or the reading of the files too. The reader
/// is the oracle's; the customer's Rust has no such files.
#[derive(Clone, Copy)]
pub enum Decoding {
    Before,
    Timed,
}

/// The Rust's call, which tells its own nanoseconds: inputs are copied before, what was made is dropped after.
pub type Rust = Box<dyn Fn() -> u128>;

/// The library's call with an output; it gives the number that was returned.
pub type Port = Box<dyn Fn(&Library, &mut [u8]) -> u64>;

/// A call of the library, with the Rust's beside it where it has one.
pub struct Case {
    pub rust: Option<Rust>,
    pub port: Port,
    pub right: Right,
}

/// Nanoseconds of calls by turns.
#[derive(Default)]
pub struct Times {
    pub rust: Vec<u128>,
    pub port: Vec<u128>,
}

impl Case {
    /// So many calls, fewer if the Rust's take longer than this in all. The port's answer is checked first.
    pub fn times(&self, port: Option<&Library>, count: usize, most: u128) -> Result<Times, String> {
        let mut out = vec![0; ROOM];
        if let Some(library) = port {
            self.check(library, &mut out)?;
        }
        let mut times = Times::default();
        let mut spent = 0;
        for _ in 0..count {
            if let Some(rust) = &self.rust {
                let time = rust();
                spent += time;
                times.rust.push(time);
            }
            if let Some(library) = port {
                let start = Instant::now();
                black_box((self.port)(library, &mut out));
                times.port.push(start.elapsed().as_nanos());
            }
            if spent >= most {
                break;
            }
        }
        Ok(times)
    }

    /// An error if the port answers otherwise than the Rust.
    fn check(&self, library: &Library, out: &mut [u8]) -> Result<(), String> {
        let returned = (self.port)(library, out);
        let same = match &self.right {
            Right::Written(file) => returned == file.len() as u64 && out[..file.len()] == file[..],
            Right::Returned(number) => returned == *number,
        };
        match same {
            true => Ok(()),
            false => Err(format!("the port answers otherwise than the Rust: it returned {returned:#x}")),
        }
    }
}
