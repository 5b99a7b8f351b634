//! Lists for a catalog: tags that lie close together, so that there is something to merge, in several spellings,
//! with barred and together names taken from the tags and from the plan without them.

use crate::catalog::{ATOMIC, Catalog, Node};
use crate::generate::walks::{Taste, cut, indexes, walk};
use crate::list::List;
use crate::planner::reach;
use crate::plc;
use crate::random::Random;

const BUDGETS: &[u16] =
    &[0, 63, 64, 80, 100, 120, 150, 200, 250, 300, 400, 500, 650, 800, 1000, 1500, 4000, 4000, 4000, 65_535];
const ODD_TAILS: &[&str] = &[".5", "[]", ".", "{3}", " ", "[", "{2}{2}", "[1", ".x y", "[-1]", "}", "{0}"];

pub fn list(random: &mut Random, catalog: &Catalog) -> List {
    let mut list = List {
        whole_max: whole_max(random, catalog),
        budget: match random.chance(80) {
            true => *random.pick(BUDGETS),
            false => random.below(1200) as u16,
        },
        tags: tags(random, catalog),
        ..List::default()
    };
    let rust = catalog.to_rust();
    if random.chance(25) {
        list.budget = tight(random, &list.tags, &rust);
    }
    let groups = reach::plan(&list, &rust).into_iter().filter(|r| r.members.len() > 1);
    let names: Vec<String> = groups.map(|r| r.name).collect();
    if random.chance(30) {
        let count = random.within(1, 3);
        list.together = (0..count).map(|_| together(random, &list.tags, &names)).collect();
        if random.chance(40) && !list.tags.is_empty() {
            let tag = random.pick(&list.tags).clone();
            let tokens = reach::tokens(&tag).unwrap_or_default();
            list.together.extend(tokens.iter().take(40).map(|t| tag[..t.end].to_owned()));
        }
    }
    if random.chance(35) {
        let count = random.within(1, 4);
        list.no_group = (0..count).map(|_| barred(random, &list.tags, &names)).collect();
    }
    list
}

/// A budget that the plain reads fill but for some room, in which not every merge fits.
fn tight(random: &mut Random, tags: &[String], rust: &plc::Catalog) -> u16 {
    let replies: usize = tags.iter().map(|t| reach::read_size(t, rust).1).sum();
    let packets = random.weighted(&[(4, 1), (1, 2)]);
    (52 + replies / packets + random.below(1200)).min(65_535) as u16
}

fn whole_max(random: &mut Random, catalog: &Catalog) -> u32 {
    match random.below(10) {
        0..4 => 500,
        4..6 => *random.pick(&[0, 12, 100, 65_535, u32::MAX]),
        n => {
            let largest = catalog.types.iter().map(|t| t.size).max().unwrap_or(500);
            let size = match random.chance(60) || catalog.types.is_empty() {
                true => largest,
                false => random.pick(&catalog.types).size,
            };
            (u32::from(size) + n as u32).saturating_sub(8)
        }
    }
}

/// The tags of a list, most of them under one to three tags of the catalog.
fn tags(random: &mut Random, catalog: &Catalog) -> Vec<String> {
    let taste = Taste::any(random);
    let most = if catalog.tags.len() > 100 { 30 } else { 3 };
    let focus: Vec<&Node> = (0..random.within(1, most)).map(|_| focus(random, catalog, &taste)).collect();
    let mut tags = Vec::new();
    match random.below(20) {
        0 => clusters(random, catalog, &mut tags),
        1..4 => members(random, catalog, focus[0], &taste, &mut tags),
        4..10 => focus.iter().for_each(|node| below(random, catalog, node, &taste, &mut tags)),
        10..14 => rows(random, catalog, &taste, &mut tags),
        _ => {}
    }
    let most = random.weighted(&[(25, 8), (25, 15), (1, 70)]);
    let more = match catalog.tags.len() > 100 {
        true => random.within(150, 256),
        false if tags.is_empty() => random.within(2, most),
        false => random.below(5),
    };
    let more = if random.chance(3) { 0 } else { more };
    for _ in 0..more {
        let tag = one(random, catalog, &focus, &taste, &tags);
        tags.push(tag);
    }
    tags.retain(|t| t.len() <= 128);
    tags.truncate(256);
    while tags.iter().map(|t| t.len() + 1).sum::<usize>() > 14_000 {
        tags.pop();
    }
    tags
}

/// A tag to lie under: tame lists want structs and arrays.
fn focus<'a>(random: &mut Random, catalog: &'a Catalog, taste: &Taste) -> &'a Node {
    let mut node = random.pick(&catalog.tags);
    for _ in 0..4 {
        let listed = catalog.type_named(&node.type_name).is_some();
        if taste.is_tame() && !listed && node.dims.is_empty() {
            node = random.pick(&catalog.tags);
        }
    }
    node
}

/// One tag more: an earlier one again, one that is odd, or one under a tag.
fn one(random: &mut Random, catalog: &Catalog, focus: &[&Node], taste: &Taste, tags: &[String]) -> String {
    let wild = if taste.is_tame() { 3 } else { 1 };
    match random.below(100 * wild) {
        0..10 if !tags.is_empty() => random.pick(tags).clone(),
        10..16 if !tags.is_empty() => {
            let earlier = random.pick(tags).clone();
            random.respell(&earlier)
        }
        16..20 => {
            let name = walk(random, catalog, focus[0], taste);
            format!("{name}{}", random.pick(ODD_TAILS))
        }
        20..23 => random.pick(&["Nowhere", "", "X.5", "Nowhere.a[3]", "A B"]).to_string(),
        23..33 => {
            let node = random.pick(&catalog.tags);
            walk(random, catalog, node, taste)
        }
        _ => {
            let node = *random.pick(focus);
            walk(random, catalog, node, taste)
        }
    }
}

/// Some names under one place, so that they meet in the structs above them.
fn below(random: &mut Random, catalog: &Catalog, tag: &Node, taste: &Taste, tags: &mut Vec<String>) {
    let name = walk(random, catalog, tag, taste);
    let prefix = cut(random, &name);
    let Some(node) = catalog.to_rust().info(&prefix).cloned() else {
        return;
    };
    let Some(t) = catalog.type_named(&node.type_name) else {
        return;
    };
    for _ in 0..random.within(2, 5).min(2 * t.members.len()) {
        let member = random.pick(&t.members);
        let rest = walk(random, catalog, member, taste);
        tags.push(format!("{prefix}.{rest}"));
    }
}

/// Elements in a row, or nearly, of one to four arrays.
fn rows(random: &mut Random, catalog: &Catalog, taste: &Taste, tags: &mut Vec<String>) {
    let rust = catalog.to_rust();
    let step = *random.pick(&[1, 1, 1, 2, 57, 113]);
    let mut arrays = random.within(1, 4);
    for _ in 0..24 {
        let tag = random.pick(&catalog.tags);
        let name = walk(random, catalog, tag, taste);
        let Some(array) = name.strip_suffix(']').and_then(|n| n.rfind('[')).map(|p| &name[..p]) else {
            continue;
        };
        if taste.is_tame() && reach::element_size(array, &rust).is_none() {
            continue;
        }
        let start = *random.pick(&[0, 0, 3, 100, 254]);
        tags.extend((0..random.within(2, 5)).map(|i| format!("{array}[{}]", start + step * i)));
        arrays -= 1;
        if arrays == 0 {
            break;
        }
    }
}

/// More than ten far apart places of one array, one or two elements at each.
fn clusters(random: &mut Random, catalog: &Catalog, tags: &mut Vec<String>) {
    let runs = |n: &&Node| n.kind == ATOMIC && n.dims.len() == 1;
    let arrays: Vec<&Node> = catalog.tags.iter().filter(runs).collect();
    if arrays.is_empty() {
        return;
    }
    let name = &random.pick(&arrays).name.clone();
    for cluster in 0..random.within(11, 14) {
        tags.push(format!("{name}[{}]", 1000 * cluster));
        if random.chance(60) {
            tags.push(format!("{name}[{}]", 1000 * cluster + random.within(1, 3)));
        }
    }
}

/// Every member of a struct once, or the first few of them.
fn members(random: &mut Random, catalog: &Catalog, tag: &Node, taste: &Taste, tags: &mut Vec<String>) {
    let Some(t) = catalog.type_named(&tag.type_name).filter(|t| !t.members.is_empty()) else {
        return;
    };
    let count = match random.chance(50) {
        true => t.members.len(),
        false => random.within(1, t.members.len()),
    };
    let index = match tag.dims.is_empty() {
        true => String::new(),
        false => indexes(random, tag.dims.len(), taste),
    };
    tags.extend(t.members[..count].iter().map(|m| format!("{}{index}.{}", tag.name, m.name)));
}

fn together(random: &mut Random, tags: &[String], reads: &[String]) -> String {
    let name = prefix(random, tags, reads);
    let name = if random.chance(30) { random.respell(&name) } else { name };
    name.chars().take(128).collect()
}

fn barred(random: &mut Random, tags: &[String], reads: &[String]) -> String {
    let name = prefix(random, tags, reads);
    match random.chance(85) {
        true => name.to_ascii_lowercase(),
        false => name,
    }
}

fn prefix(random: &mut Random, tags: &[String], reads: &[String]) -> String {
    match random.below(20) {
        0 => "nowhere".to_owned(),
        1..13 if !reads.is_empty() => random.pick(reads).clone(),
        _ if !tags.is_empty() => {
            let tag = random.pick(tags).clone();
            cut(random, &tag)
        }
        _ => String::new(),
    }
}
