//! Features of a plan: what its catalog and list hold, what the plan looks like, and what the counting copy saw
//! while it was made. The counting copy's plan must be the unchanged one's.

use super::Features;
use super::lookup::dotted;
use super::names::{has_program, leading_zeros};
use crate::catalog::{ATOMIC, Catalog, Node, STRING, STRUCT};
use crate::list::List;
use crate::plan::{PlannedRead, Step};
use crate::planner::reach;
use crate::{counted, plc, tally};

pub fn features(catalog: &Catalog, list: &List) -> Features {
    let rust = catalog.to_rust();
    let plan = reach::plan(list, &rust);
    tally::take();
    let second = counted::reach::plan(list, &rust);
    assert_eq!(plan, second, "the counting copy plans otherwise");
    let mut seen = Features(tally::take().into_iter().collect());
    types(&mut seen, catalog);
    tags(&mut seen, catalog);
    asked(&mut seen, &rust, list);
    grouping(&mut seen, catalog, &rust, list);
    reads(&mut seen, &plan, list);
    seen
}

fn types(seen: &mut Features, catalog: &Catalog) {
    let listed = |n: &Node| n.kind == STRUCT && catalog.type_named(&n.type_name).is_some();
    let members = || catalog.types.iter().flat_map(|t| &t.members);
    seen.when(members().any(listed), "nested structs");
    seen.when(catalog.depth() == 16, "types sixteen deep");
    seen.when(catalog.types.iter().any(|t| t.aoi == 1), "AOI 1");
    seen.when(catalog.types.iter().any(|t| t.aoi == 2), "AOI 2");
    let spoilt = |n: &Node| n.kind == STRUCT && catalog.type_named(&n.type_name).is_some_and(|t| t.aoi == 2);
    seen.when(members().any(spoilt), "AOI 2 below the first level");
    let two_down = |n: &Node| {
        let inner = catalog.type_named(&n.type_name).filter(|_| n.kind == STRUCT);
        inner.is_some_and(|t| t.members.iter().any(spoilt))
    };
    seen.when(members().any(two_down), "AOI 2 below the second level");
}

fn tags(seen: &mut Features, catalog: &Catalog) {
    let nodes = || catalog.tags.iter().chain(catalog.types.iter().flat_map(|t| &t.members));
    let listed = |n: &Node| catalog.type_named(&n.type_name);
    seen.when(nodes().any(|n| n.kind == STRUCT && !n.dims.is_empty()), "arrays of structs");
    seen.when(nodes().any(|n| n.dims.len() > 1), "several dimensions");
    seen.when(nodes().any(|n| n.type_name == "BOOL" && !n.dims.is_empty()), "BOOL arrays");
    seen.when(nodes().any(|n| n.type_name == "DWORD" && !n.dims.is_empty()), "DWORD arrays");
    seen.when(nodes().any(|n| n.kind == STRUCT && listed(n).is_none()), "unlisted types");
    seen.when(nodes().any(|n| n.kind != STRUCT && listed(n).is_some()), "a listed type in another kind");
    seen.when(nodes().any(|n| n.kind == STRING), "strings");
    seen.when(nodes().any(|n| n.kind == STRING && n.size.is_none()), "strings without a size");
    seen.when(nodes().any(|n| n.kind == STRUCT && n.size.is_none()), "structs without a size");
    let differs = |n: &Node| n.size.is_some() && listed(n).is_some_and(|t| Some(t.size) != n.size);
    seen.when(nodes().any(differs), "a node's size other than its type's");
    let unknown = |n: &Node| n.kind == ATOMIC && plc::atomic_size(&n.type_name).is_none();
    seen.when(nodes().any(unknown), "unknown atomics");
    seen.when(catalog.tags.iter().any(|t| has_program(&t.name)), "program tags");
    seen.when(catalog.tags.iter().any(|t| dotted(&t.name)), "dotted tags");
    seen.when(catalog.tags.iter().any(|t| t.name.ends_with(']')), "a tag spelled as an element");
    let instance = |low: u32, high: u32| catalog.tags.iter().any(|t| t.instance.is_some_and(|i| low <= i && i <= high));
    seen.when(instance(0, 255), "instance ids below 256");
    seen.when(instance(256, 65_535), "instance ids from 256");
    seen.when(instance(65_536, u32::MAX), "instance ids from 65,536");
    seen.when(catalog.tags.iter().any(|t| t.instance.is_none()), "tags without an instance id");
}

/// The tags of the list.
fn asked(seen: &mut Features, rust: &plc::Catalog, list: &List) {
    let tags = &list.tags;
    let pair = |alike: fn(&str, &str) -> bool| (1..tags.len()).any(|i| tags[..i].iter().any(|t| alike(t, &tags[i])));
    seen.when(tags.is_empty(), "empty lists");
    seen.when(tags.len() > 40, "lists of more than 40 tags");
    seen.when(tags.len() > 200, "lists of more than 200 tags");
    seen.when(pair(|a, b| a == b), "exact duplicates");
    seen.when(pair(|a, b| a != b && a.eq_ignore_ascii_case(b)), "several spellings of one tag");
    seen.when(tags.iter().any(|t| reach::tokens(t).is_none()), "names without tokens");
    seen.when(tags.iter().any(|t| reach::range(t).is_some()), "ranges as listed tags");
    seen.when(tags.iter().any(|t| leading_zeros(t)), "leading zeros");
    seen.when(tags.iter().any(|t| rust.info(t).is_none()), "unknown tags");
    seen.when(tags.iter().any(|t| t.contains("][")), "two brackets in a row");
    let several = |t: &String| reach::tokens(t).is_some_and(|k| k.iter().any(|t| t.indexes.len() > 1));
    seen.when(tags.iter().any(several), "several indexes in one bracket");
    let flat = |t: &String| reach::tokens(t).is_some_and(|k| k.len() > 1) && rust.tag(t).is_some();
    seen.when(tags.iter().any(flat), "a flat name listed");
    let node = |t: &String| rust.info(t).cloned();
    let last = |t: &String| reach::tokens(t).and_then(|k| k.last().cloned());
    let structs = |t: &String| node(t).is_some_and(|n| rust.struct_size(&n).is_some());
    seen.when(tags.iter().any(structs), "structs listed themselves");
    let unindexed =
        |t: &String| node(t).is_some_and(|n| !n.dims.is_empty()) && last(t).is_some_and(|l| l.indexes.is_empty());
    seen.when(tags.iter().any(unindexed), "arrays listed without an index");
    let one_of_two = |t: &String| one_index_on_several(rust, t);
    seen.when(tags.iter().any(one_of_two), "one index on several dimensions of structs");
    let past = |t: &String| match (node(t), last(t)) {
        (Some(node), Some(last)) => {
            last.indexes.len() == 1 && node.dims.first().is_some_and(|d| last.indexes[0] as u64 >= *d)
        }
        _ => false,
    };
    seen.when(tags.iter().any(past), "an index past the end");
}

/// Whether a name has a single index behind an array of structs of several dimensions.
fn one_index_on_several(rust: &plc::Catalog, tag: &str) -> bool {
    let tokens = reach::tokens(tag).unwrap_or_default();
    tokens.windows(2).any(|pair| {
        let array = rust.info(&tag[..pair[0].end]);
        pair[1].indexes.len() == 1 && array.is_some_and(|n| n.dims.len() > 1 && n.kind == plc::Kind::Struct)
    })
}

/// Maximum, budget, barred and together names.
fn grouping(seen: &mut Features, catalog: &Catalog, rust: &plc::Catalog, list: &List) {
    let max = list.whole_max;
    seen.when(max == 0, "whole maximum 0");
    seen.when(max > 65_535, "whole maximum over every size");
    seen.when(catalog.types.iter().any(|t| u32::from(t.size) == max), "whole maximum just a type's size");
    seen.when(catalog.types.iter().any(|t| u32::from(t.size) == max.saturating_add(1)), "whole maximum one short");
    seen.when(list.budget == 0, "budget 0");
    seen.when(list.budget < 100, "budgets below 100");
    seen.when(list.budget == 65_535, "budget 65,535");
    let under = |name: &str| {
        list.tags
            .iter()
            .any(|t| t.len() >= name.len() && t.as_bytes()[..name.len()].eq_ignore_ascii_case(name.as_bytes()))
    };
    let barred = || list.no_group.iter().filter(|n| under(n));
    let is_struct = |n: &&String| rust.info(n).is_some_and(|i| rust.struct_size(i).is_some());
    seen.when(barred().any(|n| is_struct(&n)), "barred structs");
    seen.when(barred().any(|n| reach::element_size(n, rust).is_some()), "barred arrays");
    seen.when(list.no_group.iter().any(|n| reach::range(n).is_some()), "barred runs");
    seen.when(barred().any(|n| n.bytes().any(|b| b.is_ascii_uppercase())), "barred names with capitals");
    seen.when(list.together.iter().any(|n| under(n) && is_struct(&n)), "together structs");
    let inside = |n: &String| {
        list.together.iter().any(|o| {
            o.len() > n.len() && is_struct(&o) && under(o) && o.as_bytes()[..n.len()].eq_ignore_ascii_case(n.as_bytes())
        })
    };
    seen.when(list.together.iter().any(|n| is_struct(&n) && inside(n)), "together structs one inside another");
    let both = |n: &String| list.no_group.contains(&n.to_ascii_lowercase()) && is_struct(&n);
    seen.when(list.together.iter().any(both), "barred and together at once");
}

fn reads(seen: &mut Features, plan: &[PlannedRead], list: &List) {
    let grouped = |r: &&PlannedRead| !matches!(r.members.as_slice(), [(_, None)]);
    let groups: Vec<&PlannedRead> = plan.iter().filter(grouped).collect();
    seen.when(groups.is_empty() && !plan.is_empty(), "a plan of plain reads only");
    seen.when(groups.len() > 1, "a plan of several groups");
    let steps = || groups.iter().flat_map(|r| r.members.iter().filter_map(|(_, path)| path.as_ref()));
    seen.when(steps().any(|p| p.len() > 2), "a path of three steps or more");
    seen.when(steps().any(|p| p.len() > 20), "a path of more than twenty steps");
    seen.when(plan.iter().any(|r| r.name.len() > 100), "a read name of more than 100 bytes");
    seen.when(groups.iter().any(|r| r.name.len() > 100), "a group's name of more than 100 bytes");
    let through = |p: &Vec<Step>| p.len() > 1 && p.iter().any(|s| matches!(s, Step::Index(_)));
    seen.when(steps().any(through), "a path through an array");
    seen.when(groups.iter().any(|r| r.members.iter().any(|(_, p)| p.is_none())), "a listed struct among its members");
    let twice = |r: &&&PlannedRead| (1..r.members.len()).any(|i| r.members[..i].contains(&r.members[i]));
    seen.when(groups.iter().any(|r| twice(&r)), "a member twice");
    let spelled = |r: &&&PlannedRead| {
        let base = r.name.split(['{', '[']).next().unwrap_or_default();
        !r.members.iter().all(|(t, _)| t.starts_with(base))
    };
    seen.when(groups.iter().any(|r| spelled(&r)), "a group spelled otherwise than a member");
    seen.when(groups.iter().any(|r| r.members.len() > 4), "a group of five members or more");
    let order: Vec<&String> = plan.iter().flat_map(|r| r.members.iter().map(|(t, _)| t)).collect();
    seen.when(!order.iter().copied().eq(&list.tags), "tags in another order than listed");
}
