//! Names that step through a catalog.

use crate::catalog::{Catalog, Node};
use crate::planner::reach;
use crate::random::Random;

/// How far names stray. Tame ones use few indexes and the catalog's spelling, so that they meet one another.
pub struct Taste {
    tame: bool,
    indexes: [usize; 3],
}

impl Taste {
    pub fn any(random: &mut Random) -> Self {
        let first = *random.pick(&[0, 0, 1, 3, 112, 255, 1000]);
        Taste { tame: random.chance(65), indexes: [first, first + 1, first + *random.pick(&[1, 2, 3, 57, 113])] }
    }

    pub fn is_tame(&self) -> bool {
        self.tame
    }
}

/// A name under a tag: members and indexes as far as they go, at times less far or otherwise.
pub fn walk(random: &mut Random, catalog: &Catalog, tag: &Node, taste: &Taste) -> String {
    let mut name = tag.name.clone();
    let mut node = tag;
    loop {
        if !node.dims.is_empty() && random.chance(92) {
            name += &indexes(random, node.dims.len(), taste);
        }
        let Some(t) = catalog.type_named(&node.type_name) else {
            break;
        };
        if t.members.is_empty() || random.chance(10) {
            break;
        }
        node = random.pick(&t.members);
        name += &format!(".{}", node.name);
    }
    match random.chance(if taste.tame { 6 } else { 15 }) {
        true => random.respell(&name),
        false => name,
    }
}

pub fn indexes(random: &mut Random, dims: usize, taste: &Taste) -> String {
    if random.chance(1) {
        return "[1]".repeat(random.within(20, 38));
    }
    let count = if taste.tame || random.chance(80) { dims } else { random.within(1, 3) };
    let numbers: Vec<String> = (0..count).map(|_| index(random, taste)).collect();
    match taste.tame || random.chance(80) {
        true => format!("[{}]", numbers.join(",")),
        false => format!("[{}]", numbers.join("][")),
    }
}

/// An index: small ones mostly, and those around which gaps split and sizes change.
fn index(random: &mut Random, taste: &Taste) -> String {
    let index = match random.below(20) {
        _ if taste.tame && random.chance(85) => *random.pick(&taste.indexes),
        0..12 => random.below(6),
        12 | 13 => random.below(120),
        14 | 15 => *random.pick(&[56, 57, 58, 112, 113, 114, 115, 225, 226, 227, 450, 451, 452]),
        16 => random.within(254, 258),
        17 => 1000 * random.below(12),
        18 => random.below(200_000),
        _ => *random.pick(&[0, 3, 1_000_000]),
    };
    match random.chance(4) {
        true => format!("{}{index}", random.pick(&["0", "00"])),
        false => index.to_string(),
    }
}

/// A name cut off behind one of its tokens.
pub fn cut(random: &mut Random, name: &str) -> String {
    let Some(tokens) = reach::tokens(name) else {
        return name.to_owned();
    };
    name[..random.pick(&tokens).end].to_owned()
}
