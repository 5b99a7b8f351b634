//! Size tables and budgets for packing.

use crate::random::Random;

pub const BUDGETS: &[u16] = &[0, 1, 29, 30, 31, 51, 52, 53, 63, 64, 100, 500, 4000, 65_535];

pub fn budget(random: &mut Random) -> u16 {
    match random.below(4) {
        0 => *random.pick(BUDGETS),
        1 => random.below(200) as u16,
        2 => random.below(5000) as u16,
        _ => random.below(65_536) as u16,
    }
}

/// Requests and replies, equally many.
pub fn tables(random: &mut Random, budget: u16) -> (Vec<u64>, Vec<u64>) {
    let most = random.weighted(&[(20, 12), (5, 40), (1, 257)]);
    let count = random.below(most);
    let style = random.below(4);
    let entry = |random: &mut Random, empty: u64| size(random, u64::from(budget).saturating_sub(empty), style);
    let requests = (0..count).map(|_| entry(random, 30)).collect();
    let replies = (0..count).map(|_| entry(random, 52)).collect();
    (requests, replies)
}

/// A size: around what fits a packet alone, a part of it, anything small, or huge.
fn size(random: &mut Random, room: u64, style: usize) -> u64 {
    match (style, random.below(20)) {
        (_, 0) => *random.pick(&[0, 1, 1 << 40, (1 << 40) - 1, 65_535, 65_536]),
        (_, 1) => random.draw() % (1 << 40),
        (_, 2 | 3) => (room + random.below(3) as u64).saturating_sub(1),
        (0, _) => random.below(40) as u64,
        (1, _) => (room / random.within(1, 5) as u64 + random.below(3) as u64).saturating_sub(1),
        (2, _) => random.draw() % (room + 10),
        _ => random.below(2000) as u64,
    }
}
