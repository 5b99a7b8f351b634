//! Features of packing: what goes alone, what fits exactly, how groups break.

use super::Features;
use crate::planner::reach;

pub fn features(sizes: &[(usize, usize)], budget: u16) -> Features {
    let mut seen = Features::default();
    let room = usize::from(budget);
    let (groups, _) = reach::pack(sizes, room);
    let alone = |(request, reply): &(usize, usize)| 30 + request > room || 52 + reply > room;
    let lone: Vec<usize> = (0..sizes.len()).filter(|i| alone(&sizes[*i])).collect();
    let shared = &groups[..groups.len() - lone.len()];
    seen.when(sizes.is_empty(), "no reads");
    seen.when(sizes.len() > 100, "more than 100 reads");
    seen.when(!lone.is_empty(), "a lone read");
    seen.when(lone.len() == sizes.len() && lone.len() > 1, "all alone");
    seen.when(shared.len() == 1, "one group");
    seen.when(shared.len() > 1, "several groups");
    let around = |g: &Vec<usize>| g.windows(2).any(|w| w[1] > w[0] + 1);
    seen.when(shared.iter().any(around), "a lone read inside a group");
    seen.when(sizes.iter().any(|s| s.0 + 30 > room && s.1 + 52 <= room), "alone by its request");
    seen.when(sizes.iter().any(|s| s.0 + 30 <= room && s.1 + 52 > room), "alone by its reply");
    let sum =
        |g: &Vec<usize>, part: fn(&(usize, usize)) -> usize| -> usize { g.iter().map(|i| part(&sizes[*i])).sum() };
    seen.when(shared.iter().any(|g| sum(g, |s| s.0) + 30 == room), "requests fill a packet exactly");
    seen.when(shared.iter().any(|g| sum(g, |s| s.1) + 52 == room), "replies fill a packet exactly");
    let one_more = |w: &[Vec<usize>]| sum(&w[0], |s| s.1) + sizes[w[1][0]].1 + 52 == room + 1;
    seen.when(shared.windows(2).any(one_more), "a group broken by one byte");
    let by_request = |w: &[Vec<usize>]| sum(&w[0], |s| s.0) + sizes[w[1][0]].0 + 30 > room;
    seen.when(shared.windows(2).any(by_request), "a group broken by its requests");
    seen.when(lone.iter().any(|i| sizes[*i].1 > room.saturating_sub(52).max(1)), "a reply of several packets");
    seen.when(lone.iter().any(|i| sizes[*i].1 == 0), "a lone read without a reply");
    budgets(&mut seen, budget);
    seen
}

fn budgets(seen: &mut Features, budget: u16) {
    let known: &[(u16, &'static str)] = &[
        (0, "budget 0"),
        (1, "budget 1"),
        (51, "budget 51"),
        (52, "budget 52"),
        (53, "budget 53"),
        (63, "budget 63"),
        (64, "budget 64"),
        (65_535, "budget 65,535"),
    ];
    for (number, name) in known {
        seen.when(budget == *number, name);
    }
}
