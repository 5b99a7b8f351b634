//! What the port's document says of sizes, packing, cutting and sorting, written down a second time and held against
//! the Rust on generated cases.

mod common;

use ciplink::Value;
use ciplink::cip::TagResult;
use common::{groups_of, sizes};
use oracle::bytes::{Writer, table};
use oracle::catalog::{ATOMIC, Catalog, Node};
use oracle::kinds::{Fields, budget, named};
use oracle::plan::{self, PlannedRead, Step};
use oracle::random::Random;
use oracle::{names, planner, results, value};

fn cases(kind: &str, count: usize) -> impl Iterator<Item = (Fields, Vec<u8>)> {
    let kind = named(kind).expect("a kind");
    let mut random = Random::new(11);
    (0..count).map(move |_| {
        let case = (kind.generate)(&mut random);
        let answer = (kind.answer)(&case).expect("an answer");
        (case, answer)
    })
}

#[test]
fn packing_is_as_described() {
    for (case, answer) in cases("chunks", 5000) {
        let (requests, replies) = (table(&case[0]).expect("a table"), table(&case[1]).expect("a table"));
        let room = u64::from(budget(&case[2]).expect("a budget"));
        let (mut groups, mut lone, mut packets): (Vec<Vec<u64>>, Vec<Vec<u64>>, u64) = Default::default();
        let mut filled = (u64::MAX / 2, 0);
        for (position, (request, reply)) in requests.iter().zip(&replies).enumerate() {
            if 30 + request > room || 52 + reply > room {
                lone.push(vec![position as u64]);
                packets += reply.div_ceil(room.saturating_sub(52).max(1)).max(1) + 2;
                continue;
            }
            if filled.0 + request > room || filled.1 + reply > room {
                groups.push(Vec::new());
                packets += 1;
                filled = (30, 52);
            }
            groups.last_mut().expect("a group").push(position as u64);
            filled = (filled.0 + request, filled.1 + reply);
        }
        groups.extend(lone);
        assert_eq!(groups_of(&answer), (packets, groups));
    }
}

/// The request's size, from tokens and the base's instance id.
fn request(catalog: &Catalog, name: &str) -> u64 {
    let even = |text: &str| (2 + text.len() + text.len() % 2) as u64;
    let Some(tokens) = planner::reach::tokens(name) else {
        return 8 + even(name);
    };
    let base = &name[..tokens[0].end];
    let tag = catalog.tags.iter().find(|t| t.name.eq_ignore_ascii_case(base));
    let mut size = match tag.and_then(|t| t.instance) {
        Some(0..256) => 10,
        Some(65_536..) => 14,
        _ => 12,
    };
    if base.len() > 8 && base[..8].eq_ignore_ascii_case("program:") {
        size += even(&base[..base.find('.').expect("a dot")]);
    }
    for pair in tokens.windows(2) {
        let index = |i: &usize| if *i < 256 { 2 } else { 4 };
        size += match pair[1].indexes.is_empty() {
            true => even(&name[pair[0].end + 1..pair[1].end]),
            false => pair[1].indexes.iter().map(index).sum(),
        };
    }
    size
}

/// The reply's size, from what a name finds.
fn reply(node: Option<&Node>, count: Option<u64>) -> u64 {
    let atomic = |n: &Node| oracle::plc::atomic_size(&n.type_name).unwrap_or(4);
    let (element, more) = match node {
        None => (4, 8),
        Some(n) if n.kind == ATOMIC => (atomic(n), 8),
        Some(n) => (u64::from(n.size.unwrap_or(4)), 10),
    };
    let bits = |n: &Node| n.type_name == "BOOL" || n.type_name == "DWORD" && !n.dims.is_empty();
    match count {
        None => element + more,
        Some(count) if node.is_some_and(bits) => count.div_ceil(32) * 4 + 8,
        Some(count) => count * element + more,
    }
}

/// The full name as a tag, or its steps without brackets and braces behind any program part.
fn info<'a>(catalog: &'a Catalog, name: &str) -> Option<&'a Node> {
    let find = |nodes: &'a [Node], name: &str| nodes.iter().find(|n| n.name.eq_ignore_ascii_case(name));
    if let Some(tag) = find(&catalog.tags, name) {
        return Some(tag);
    }
    let program = name.len() >= 8 && name[..8].eq_ignore_ascii_case("program:");
    let start = name.find('.').filter(|_| program).map_or(0, |dot| dot + 1);
    let stripped = names::strip(&name.as_bytes()[start..]).expect("a name");
    let stripped = String::from_utf8(stripped).expect("a text");
    let mut steps = stripped.split('.');
    let mut node = find(&catalog.tags, &format!("{}{}", &name[..start], steps.next()?))?;
    for step in steps {
        node = find(&catalog.type_named(&node.type_name)?.members, step)?;
    }
    Some(node)
}

#[test]
fn sizes_are_as_described() {
    for (case, _) in cases("sizes", 5000) {
        let catalog = Catalog::read(&case[0]).expect("accepted");
        let name = String::from_utf8(case[1].clone()).expect("a text");
        let expected = match planner::reach::range(&name) {
            None => (request(&catalog, &name), reply(info(&catalog, &name), None)),
            Some((base, n)) => (request(&catalog, base), reply(info(&catalog, base), Some(n as u64))),
        };
        assert_eq!(sizes(&catalog, &name), expected, "{name}");
    }
}

/// A walk of one key fewer each time.
fn dig<'a>(value: &'a Value, path: &[Step]) -> Option<&'a Value> {
    let [key, rest @ ..] = path else {
        return Some(value);
    };
    let inner = match (value, key) {
        (Value::Array(items), Step::Index(i) | Step::First(i)) => items.get(*i as usize)?,
        (Value::Struct(members), Step::Member(name)) => {
            let alike = |k: &&String| k.eq_ignore_ascii_case(name);
            let exact = members.keys().find(|k| *k == name);
            members.get(exact.or_else(|| members.keys().find(alike))?)?
        }
        _ => return None,
    };
    dig(inner, rest)
}

#[test]
fn cutting_is_as_described() {
    for (case, answer) in cases("dig", 5000) {
        let value = value::read(&case[0]).expect("accepted");
        let cut = dig(&value, &plan::read_path(&case[1]).expect("accepted"));
        let place = cut.map_or(0, |v| v.place().expect("a place"));
        assert_eq!(answer, (place as u64).to_be_bytes());
    }
}

/// The entries of one read, and whether it failed by an error or by a cut.
fn entries(writer: &mut Writer, read: &PlannedRead, result: &TagResult) -> (bool, bool) {
    let only = matches!(read.members.as_slice(), [(_, None)]);
    let error = result.error.is_some() && !only;
    let mut missing = false;
    for (_, path) in &read.members {
        let cut = path.as_ref().map(|path| result.value.as_ref().and_then(|v| dig(v, path)));
        match cut {
            _ if error => writer.number(1, 1),
            None => writer.number(1, 2),
            Some(Some(value)) => writer.number(1, 0).count(4, value.place().expect("a place")),
            Some(None) => {
                missing = true;
                writer.number(1, 1)
            }
        };
    }
    (error, missing)
}

#[test]
fn sorting_is_as_described() {
    for (case, answer) in cases("sort", 5000) {
        let reads = plan::read(&case[0]).expect("accepted");
        let results = results::read(&case[1]).expect("accepted");
        let mut failed: Vec<usize> = Vec::new();
        let mut writer = Writer::versioned();
        writer.count(2, reads.iter().map(|r| r.members.len()).sum());
        for (position, (read, result)) in reads.iter().zip(&results).enumerate() {
            let (error, missing) = entries(&mut writer, read, result);
            let stands = failed.iter().any(|p| reads[*p].name == read.name);
            if error || missing && !stands {
                failed.push(position);
            }
        }
        writer.count(2, failed.len());
        for position in failed {
            writer.count(2, position);
        }
        assert_eq!(answer, writer.file);
    }
}
