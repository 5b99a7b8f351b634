//! The table of times.

use crate::case::Times;

/// Which of the times of a row is shown.
#[derive(Clone, Copy)]
pub enum Of {
    Median,
    Shortest,
}

impl Of {
    fn pick(self, times: &mut [u128]) -> Option<u128> {
        times.sort_unstable();
        match self {
            Of::Median => times.get(times.len() / 2).copied(),
            Of::Shortest => times.first().copied(),
        }
    }
}

pub fn head(what: &str) {
    println!("| {what} | Rust µs | port µs | port / Rust |");
    println!("|---|---|---|---|");
}

/// A row says how many calls were made if they are fewer than asked for; what was not timed stays empty.
pub fn row(what: &str, mut times: Times, asked: usize, of: Of) {
    let made = times.rust.len().max(times.port.len());
    let fewer = match made {
        made if made >= asked => String::new(),
        1 => ", 1 call".to_owned(),
        made => format!(", {made} calls"),
    };
    let (rust, port) = (of.pick(&mut times.rust), of.pick(&mut times.port));
    let ratio = match (rust, port) {
        (Some(rust), Some(port)) => digits(port as f64 / rust.max(1) as f64, 2),
        _ => String::new(),
    };
    println!("| {what}{fewer} | {} | {} | {ratio} |", micros(rust), micros(port));
}

/// Nanoseconds as microseconds.
fn micros(time: Option<u128>) -> String {
    time.map_or(String::new(), |time| digits(time as f64 / 1000.0, 1))
}

/// With so many decimals, or as many more as it takes to show three digits of a small number.
fn digits(number: f64, decimals: usize) -> String {
    let decimals = if number < 0.1 { decimals + 2 } else { decimals };
    format!("{number:.decimals$}")
}
