//! Catalogs: mostly small ones with nested structs, arrays and program tags, some with chains of sixteen types and
//! some large. All of them are inside the limits.

use crate::catalog::{ATOMIC, Catalog, Node, STRING, STRUCT, TEXT, Type};
use crate::random::Random;

const TYPES: &[&str] = &["Motor", "Pump", "Axis", "Cell", "Line", "Valve", "Drive", "Unit", "motor"];
const MEMBERS: &[&str] =
    &["Speed", "Amps", "Run", "Count", "Data", "Bits", "Inner", "Zed", "Mode", "_x", "a", "Words", "Name", "In"];
const TAGS: &[&str] =
    &["Motor", "Trend", "Line1", "A", "B", "Data", "Bits", "Cell", "X", "D", "_t", "Temp2", "Hist", "Recipe"];
const NUMBERS: &[(usize, &str)] = &[
    (12, "DINT"),
    (8, "REAL"),
    (5, "BOOL"),
    (4, "INT"),
    (3, "SINT"),
    (2, "LREAL"),
    (2, "LINT"),
    (1, "UDINT"),
    (1, "UINT"),
    (1, "USINT"),
    (1, "ULINT"),
    (1, "BYTE"),
    (1, "WORD"),
    (1, "DWORD"),
    (1, "LWORD"),
    (1, "dint"),
    (1, "TIMER"),
];
const INSTANCES: &[u32] = &[0, 5, 7, 255, 256, 300, 65_535, 65_536, 70_000, u32::MAX];
const DIMS: &[u32] = &[0, 1, 2, 4, 8, 10, 100, 2000, 200_000, 1_000_000];

/// A catalog; about one in twelve has a chain of types, one in twenty is large.
pub fn catalog(random: &mut Random) -> Catalog {
    let mut catalog = Catalog::default();
    let (types, tags) = match random.below(60) {
        0..5 => (16, random.within(1, 4)),
        5..8 => (random.within(6, 14), random.within(8, 20)),
        8..14 => (0, random.within(1, 4)),
        _ => (random.within(1, 5), random.within(1, 6)),
    };
    let chain = types == 16;
    for number in 0..types {
        let made = structure(random, &catalog, number, chain);
        catalog.types.push(made);
    }
    for number in 0..tags {
        let made = tag(random, &catalog, number);
        add(&mut catalog.tags, made);
    }
    if chain {
        let top = catalog.types[15].clone();
        add(&mut catalog.tags, whole(random, "Deep".to_owned(), &top));
    }
    flat_names(random, &mut catalog);
    catalog.check().expect("a generated catalog keeps the rules");
    catalog
}

/// A catalog of hundreds of tags.
pub fn large(random: &mut Random) -> Catalog {
    let mut catalog = catalog(random);
    for number in catalog.types.len()..random.within(16, 40) {
        let made = structure(random, &catalog, number, false);
        catalog.types.push(made);
    }
    for number in 0..random.within(200, 900) {
        let made = tag(random, &catalog, TAGS.len() + number);
        add(&mut catalog.tags, made);
    }
    while catalog.depth() > 16 || catalog.write().len() > 65_536 {
        catalog.types.pop();
        catalog.tags.truncate(catalog.tags.len() / 2 + 1);
    }
    catalog.check().expect("a generated catalog keeps the rules");
    catalog
}

/// Adds a node unless one of its name, case ignored, is there.
fn add(nodes: &mut Vec<Node>, node: Node) {
    if !nodes.iter().any(|n| n.name.eq_ignore_ascii_case(&node.name)) {
        nodes.push(node);
    }
}

fn structure(random: &mut Random, catalog: &Catalog, number: usize, chain: bool) -> Type {
    let name = random.pick(TYPES).to_string();
    let name = match catalog.type_named(&name) {
        Some(_) => format!("{name}{number}"),
        None => name,
    };
    let mut members = Vec::new();
    if let (true, Some(inner)) = (chain, catalog.types.last()) {
        let inner = inner.clone();
        members.push(whole(random, "In".to_owned(), &inner));
    }
    let count = if chain { random.within(0, 2) } else { random.within(1, 6) };
    for _ in 0..count {
        let made = member(random, catalog);
        add(&mut members, made);
    }
    let size = structure_size(random, &members);
    let aoi = random.weighted(&[(if chain { 90 } else { 24 }, 0), (2, 1), (2, 2)]);
    Type { name, size, aoi, members }
}

/// Half the time what the members need, else any of the sizes around which answers change.
fn structure_size(random: &mut Random, members: &[Node]) -> u16 {
    let items = |m: &Node| m.dims.iter().map(|d| *d as usize).product::<usize>().clamp(1, 20);
    let needs: usize = members.iter().map(|m| bytes(m) * items(m)).sum();
    match random.below(10) {
        0..6 => needs.next_multiple_of(4).min(65_535) as u16,
        6 | 7 => at_the_cost(random, members),
        8 => *random.pick(&[0, 4, 12, 40, 88, 200, 500, 501, 3938, 3939, 4000, 65_535]),
        _ => random.within(0, 1200) as u16,
    }
}

/// A size at which reading the first few members together costs as much as it may, or a byte less or more.
fn at_the_cost(random: &mut Random, members: &[Node]) -> u16 {
    let count = random.within(1, 4).min(members.len());
    let reply = |m: &Node| bytes(m) + if m.kind == ATOMIC { 8 } else { 10 };
    let replies: usize = members[..count].iter().map(reply).sum();
    let most = (replies + 450 * count.saturating_sub(1)).saturating_sub(10);
    (most + random.below(3)).saturating_sub(1).min(65_535) as u16
}

fn bytes(node: &Node) -> usize {
    match node.kind {
        ATOMIC => crate::plc::atomic_size(&node.type_name).unwrap_or(4) as usize,
        _ => node.size.unwrap_or(4).into(),
    }
}

fn member(random: &mut Random, catalog: &Catalog) -> Node {
    let name = match random.below(60) {
        0 => "5".to_owned(),
        1 => String::new(),
        2 => "two words".to_owned(),
        _ => random.pick(MEMBERS).to_string(),
    };
    let shape = random.weighted(&[(50, 0), (15, 1), (8, 2), (20, 3), (5, 4), (2, 5)]);
    let mut node = shaped(random, catalog, name, shape);
    if random.chance(3) {
        node.instance = Some(*random.pick(INSTANCES));
    }
    node
}

fn tag(random: &mut Random, catalog: &Catalog, number: usize) -> Node {
    let mut name = random.pick(TAGS).to_string();
    if number >= TAGS.len() {
        name += &number.to_string();
    }
    if random.chance(20) {
        let program = *random.pick(&["Program:Main.", "program:P1.", "Program:a b[c{.", "Program:."]);
        name = format!("{program}{name}");
    }
    if random.chance(2) {
        name += &"x".repeat(random.within(60, 124 - name.len()));
    }
    let shape = random.weighted(&[(15, 0), (22, 1), (6, 2), (50, 3), (4, 4), (3, 5)]);
    let mut node = shaped(random, catalog, name, shape);
    if random.chance(85) {
        node.instance = Some(*random.pick(INSTANCES));
    }
    node
}

/// Shapes: 0 number, 1 array of numbers, 2 array of bits, 3 struct, 4 string, 5 odd.
fn shaped(random: &mut Random, catalog: &Catalog, name: String, shape: u8) -> Node {
    let plain = |type_name: &str, kind, dims| Node {
        name: name.clone(),
        type_name: type_name.to_owned(),
        kind,
        dims,
        ..Node::default()
    };
    match shape {
        0 => plain(random.weighted(NUMBERS), ATOMIC, vec![]),
        1 => plain(random.weighted(NUMBERS), ATOMIC, dims(random)),
        3 if catalog.types.is_empty() => plain(random.weighted(NUMBERS), ATOMIC, dims(random)),
        2 => {
            let bits = *random.pick(&["BOOL", "DWORD", "DWORD", "BYTE", "WORD", "LWORD"]);
            plain(bits, ATOMIC, dims(random))
        }
        3 => {
            let t = match random.chance(40) {
                true => catalog.types[catalog.types.len() - 1].clone(),
                false => random.pick(&catalog.types).clone(),
            };
            let mut node = whole(random, name, &t);
            if random.chance(30) {
                node.dims = dims(random);
            }
            node
        }
        4 => Node {
            size: *random.pick(&[Some(88), Some(88), None, Some(24)]),
            dims: if random.chance(30) { dims(random) } else { vec![] },
            ..plain("STRING", STRING, vec![])
        },
        _ => odd(random, catalog, name),
    }
}

/// A struct of a listed type; its own size is at times another than the type's, or missing.
fn whole(random: &mut Random, name: String, t: &Type) -> Node {
    let size = match random.below(20) {
        0 | 1 => None,
        2 => Some(random.below(65_536) as u16),
        3 => Some(t.size.wrapping_add(4)),
        _ => Some(t.size),
    };
    Node { name, type_name: t.name.clone(), kind: STRUCT, size, ..Node::default() }
}

fn dims(random: &mut Random) -> Vec<u32> {
    let count = random.weighted(&[(24, 1), (4, 2), (1, 3)]);
    (0..count).map(|_| *random.pick(DIMS)).collect()
}

/// Types that are not listed, and kinds that do not go with the type.
fn odd(random: &mut Random, catalog: &Catalog, name: String) -> Node {
    let listed = catalog.types.first().map_or("Ghost", |t| t.name.as_str());
    let (type_name, kind) = match random.below(5) {
        0 => (listed, ATOMIC),
        1 => (listed, STRING),
        2 => ("DINT", STRUCT),
        3 => ("BOOL", STRUCT),
        _ => ("Ghost", STRUCT),
    };
    Node {
        name,
        type_name: type_name.to_owned(),
        kind,
        dims: if random.chance(40) { dims(random) } else { vec![] },
        instance: None,
        size: *random.pick(&[None, Some(20), Some(464)]),
    }
}

/// At times a tag spelled like a member, an element, a range or a bit of another.
fn flat_names(random: &mut Random, catalog: &mut Catalog) {
    if !random.chance(20) || catalog.tags.is_empty() {
        return;
    }
    let base = random.pick(&catalog.tags).name.clone();
    let tail = *random.pick(&[".Zed", ".Speed", "[3]", "[3]", ".Inner.a", "{3}", ".5"]);
    if base.len() + tail.len() > TEXT {
        return;
    }
    let shape = random.weighted(&[(4, 0), (1, 1), (2, 3)]);
    let mut node = shaped(random, catalog, format!("{base}{tail}"), shape);
    node.instance = Some(*random.pick(INSTANCES));
    add(&mut catalog.tags, node);
}
