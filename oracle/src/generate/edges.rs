//! Catalogs and lists that stand at an edge which chance seldom finds.

use crate::catalog::{Catalog, Node};
use crate::hand::shapes;
use crate::list::List;
use crate::random::Random;

/// A struct that costs as much as its members may, or a byte less or more, and all its members.
pub fn at_the_cost(random: &mut Random) -> (Catalog, List) {
    let count = random.within(2, 4);
    let names = ["a", "b", "c", "d"];
    let members: Vec<Node> = names[..count].iter().map(|n| shapes::atomic(n, "DINT", &[])).collect();
    let size = (12 * count + 450 * (count - 1) - 10 + random.below(3) - 1) as u16;
    let catalog = Catalog {
        tags: vec![shapes::structure("S", "T", size, &[])],
        types: vec![shapes::type_of("T", size, members)],
    };
    let list = List {
        whole_max: u32::from(size) + random.below(2) as u32,
        budget: *random.pick(&[4000, 65_535, size + 62]),
        tags: names[..count].iter().map(|n| format!("S.{n}")).collect(),
        ..List::default()
    };
    (catalog, list)
}

/// A together struct that fills a packet nearly or just, beside elements of arrays that would merge if packets allow.
pub fn together(random: &mut Random) -> (Catalog, List) {
    let size = random.within(100, 900) as u16;
    let members = vec![shapes::atomic("a", "DINT", &[]), shapes::atomic("b", "REAL", &[])];
    let arrays = ["A", "Z"].map(|name| shapes::atomic(name, "DINT", &[1000]));
    let mut tags = vec![shapes::structure("S", "T", size, &[])];
    tags.extend(arrays);
    let mut listed = shapes::texts(&["S.a", "S.b"]);
    for _ in 0..random.within(2, 6) {
        let index = random.below(4) * *random.pick(&[40, 80, 100]);
        let tag = format!("{}[{index}]", random.pick(&["A", "Z"]));
        listed.insert(random.below(listed.len() + 1), tag);
    }
    let list = List {
        whole_max: *random.pick(&[0, 500, 1000]),
        budget: size + 62 + random.below(60) as u16,
        together: shapes::texts(&[*random.pick(&["S", "s"])]),
        tags: listed,
        ..List::default()
    };
    let types = vec![shapes::type_of("T", size, members)];
    (Catalog { tags, types }, list)
}
