//! Values and paths: any trees, trees that a catalog's nodes hold, and paths that lead somewhere or nearly.

use crate::catalog::{ATOMIC, Catalog, Node, STRING};
use crate::plan::Step;
use crate::random::Random;
use crate::value::Plain;

const NAMES: &[&str] = &["Speed", "SPEED", "speed", "sPeed", "Data", "a", "A", "", "x y"];

/// Any tree, at most `levels` deep.
pub fn any(random: &mut Random, levels: usize) -> Plain {
    let kind = if levels > 1 { random.below(8) } else { *random.pick(&[0, 1]) };
    match kind {
        2..4 => {
            let count = random.below(4);
            Plain::Array((0..count).map(|_| any(random, levels - 1)).collect())
        }
        4..8 => Plain::Struct(named(random, levels)),
        1 => Plain::Text(free(random)),
        _ => Plain::Leaf(free(random)),
    }
}

fn named(random: &mut Random, levels: usize) -> Vec<(String, Plain)> {
    let mut members: Vec<(String, Plain)> = Vec::new();
    for _ in 0..random.below(5) {
        let name = random.pick(NAMES).to_string();
        if members.iter().all(|(n, _)| *n != name) {
            members.push((name, any(random, levels - 1)));
        }
    }
    members
}

fn free(random: &mut Random) -> Vec<u8> {
    let length = random.weighted(&[(4, 4), (2, 1), (1, 0), (1, 9)]);
    (0..length).map(|_| random.draw() as u8).collect()
}

/// A chain of arrays and structs `levels` deep, with its whole path.
pub fn chain(random: &mut Random, levels: usize) -> (Plain, Vec<Step>) {
    let mut value = Plain::Leaf(free(random));
    let mut path = Vec::new();
    for _ in 1..levels {
        if random.chance(50) {
            let items = (0..random.within(1, 2)).map(|_| Plain::Leaf(vec![])).chain([value]);
            let items: Vec<Plain> = items.collect();
            path.push(Step::Index(items.len() as u32 - 1));
            value = Plain::Array(items);
        } else {
            path.push(Step::Member("In".to_owned()));
            value = Plain::Struct(vec![("In".to_owned(), value)]);
        }
    }
    path.reverse();
    (value, path)
}

/// What a node could hold; arrays are cut to a few items, and `left` is how many values there may still be.
pub fn of_node(random: &mut Random, catalog: &Catalog, node: &Node, dims: &[u32], left: &mut usize) -> Plain {
    *left = left.saturating_sub(1);
    if let [first, rest @ ..] = dims {
        let count = (*first as usize).min(6).min(*left);
        return Plain::Array((0..count).map(|_| of_node(random, catalog, node, rest, left)).collect());
    }
    match catalog.type_named(&node.type_name) {
        Some(t) if node.kind != ATOMIC && *left > 0 => {
            let member = |m: &Node| (m.name.clone(), of_node(random, catalog, m, &m.dims, left));
            Plain::Struct(t.members.iter().map(member).collect())
        }
        _ if node.kind == STRING => Plain::Text(free(random)),
        _ => Plain::Leaf(free(random)),
    }
}

/// A path into a value that goes as far as it likes, at times astray at its end.
pub fn path(random: &mut Random, value: &Plain) -> Vec<Step> {
    let mut path = Vec::new();
    let mut value = value;
    while path.len() < 60 && random.chance(90) {
        value = match value {
            Plain::Array(items) if !items.is_empty() => {
                let index = random.below(items.len());
                path.push(if random.chance(15) { Step::First(index as u32) } else { Step::Index(index as u32) });
                &items[index]
            }
            Plain::Struct(members) if !members.is_empty() => {
                let (name, inner) = random.pick(members);
                path.push(Step::Member(if random.chance(30) { random.respell(name) } else { name.clone() }));
                inner
            }
            _ => break,
        };
    }
    if random.chance(25) {
        path.push(match random.below(4) {
            0 => Step::Member(random.pick(&["Gone", "Speed", "spEED", ""]).to_string()),
            1 => Step::Index(random.below(5) as u32),
            2 => Step::Index(*random.pick(&[65_535, 65_536, u32::MAX])),
            _ => Step::First(random.below(3) as u32),
        });
    }
    path
}
