//! Plans and results: those the Rust makes for a catalog, and others that only keep to the file's layout.

use crate::catalog::{Catalog, Node};
use crate::generate::walks::{Taste, walk};
use crate::generate::{catalogs, lists, values};
use crate::plan::{PlannedRead, Step};
use crate::planner::reach;
use crate::random::Random;
use crate::results::Outcome;

const NAMES: &[&str] = &["Motor", "motor", "Trend[3]{3}", "A", "B[1]", "", "Odd.5", "X{3}{2}", "D[1,2].a", "A{0}"];

/// A catalog and a plan for it, made by the Rust or by chance.
pub fn for_catalog(random: &mut Random) -> (Catalog, Vec<PlannedRead>) {
    let catalog = catalogs::catalog(random);
    let list = lists::list(random, &catalog);
    let mut reads = reach::plan(&list, &catalog.to_rust());
    if random.chance(50) {
        for _ in 0..random.below(8) {
            let name = odd_name(random, &catalog);
            reads.push(PlannedRead { name, members: vec![] });
        }
    }
    (catalog, reads)
}

/// A name to be sized: of the catalog, with and without a range.
pub fn odd_name(random: &mut Random, catalog: &Catalog) -> String {
    let mut name = match random.below(10) {
        0 => random.pick(NAMES).to_string(),
        _ => {
            let tag = random.pick(&catalog.tags);
            let taste = Taste::any(random);
            walk(random, catalog, tag, &taste)
        }
    };
    if random.chance(45) {
        let count = random.pick(&["0", "1", "2", "3", "31", "32", "33", "0064", "500", "1000001", "x", ""]);
        name += &format!("{{{count}}}");
    }
    if random.chance(5) {
        name += *random.pick(&["{2}", ".5", "]", "}", " ", "[3", "[1,2]"]);
    }
    name.truncate(136);
    name
}

/// A plan and results for it.
pub fn with_results(random: &mut Random) -> (Vec<PlannedRead>, Vec<Outcome>) {
    if random.chance(45) {
        return by_the_rust(random);
    }
    let count = random.below(7);
    let mut reads = Vec::new();
    let mut outcomes = Vec::new();
    for _ in 0..count {
        let value = values::any(random, 4);
        let members = (0..random.weighted(&[(3, 1), (3, 2), (2, 3), (1, 0)]))
            .map(|n| (format!("t{}", n % 2), random.chance(70).then(|| values::path(random, &value))))
            .collect();
        let name = random.pick(&NAMES[..5]).to_string();
        reads.push(PlannedRead { name, members });
        outcomes.push(outcome(random, value));
    }
    (reads, outcomes)
}

/// A value that came back, an error or neither.
pub fn outcome(random: &mut Random, value: crate::value::Plain) -> Outcome {
    match random.below(10) {
        0 | 1 => Outcome::Error,
        2 => Outcome::Neither,
        _ => Outcome::Value(value),
    }
}

/// The Rust's plan of a list, with values of the shapes that the catalog says.
fn by_the_rust(random: &mut Random) -> (Vec<PlannedRead>, Vec<Outcome>) {
    let catalog = catalogs::catalog(random);
    let list = lists::list(random, &catalog);
    let rust = catalog.to_rust();
    let mut reads = reach::plan(&list, &rust);
    reads.truncate(12);
    let mut outcomes = Vec::new();
    for read in &mut reads {
        let value = match node_named(&catalog, &read.name) {
            Some(node) => {
                let dims: &[u32] = if reach::range(&read.name).is_some() { &[5] } else { &[] };
                values::of_node(random, &catalog, node, dims, &mut 60)
            }
            None => values::any(random, 3),
        };
        if random.chance(10) {
            damage(random, &mut read.members);
        }
        outcomes.push(outcome(random, value));
    }
    (reads, outcomes)
}

/// The node of a name whose steps are spelled as in the catalog.
fn node_named<'a>(catalog: &'a Catalog, name: &str) -> Option<&'a Node> {
    let stripped = crate::plc::reach::strip(name);
    let mut nodes: Vec<&Node> = catalog.tags.iter().filter(|t| stripped.starts_with(&t.name)).collect();
    nodes.sort_by_key(|t| std::cmp::Reverse(t.name.len()));
    let mut node = *nodes.first()?;
    for step in stripped[node.name.len()..].split('.').skip(1) {
        node = catalog.type_named(&node.type_name)?.members.iter().find(|m| m.name == step)?;
    }
    Some(node)
}

/// One member's path becomes another: missing, empty, or with a step more.
fn damage(random: &mut Random, members: &mut [crate::plan::Member]) {
    if members.is_empty() {
        return;
    }
    let place = random.below(members.len());
    let path = &mut members[place].1;
    match (random.below(3), path) {
        (0, path) => *path = None,
        (1, path) => *path = Some(vec![]),
        (_, Some(steps)) => steps.push(Step::First(0)),
        (_, path) => *path = Some(vec![Step::Member("gone".to_owned())]),
    }
}
