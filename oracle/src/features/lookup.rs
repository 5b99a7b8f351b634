//! Features of a name looked up and sized in a catalog.

use super::Features;
use super::names::has_program;
use crate::catalog::Catalog;
use crate::planner::reach;
use crate::plc::{Kind, Node};

pub fn features(catalog: &Catalog, name: &str) -> Features {
    let mut seen = Features::default();
    let rust = catalog.to_rust();
    let node = rust.info(name);
    seen.when(has_program(name), "program part");
    let exact = catalog.tags.iter().any(|t| t.name == name);
    let tag = rust.tag(name).is_some();
    seen.when(exact, "a tag as spelled");
    seen.when(tag && !exact, "a tag in another case");
    seen.when(tag && (name.contains(['[', '{']) || dotted(name)), "a tag with a dot, bracket or brace");
    seen.when(node.is_none(), "not found");
    if let Some(node) = node {
        found(&mut seen, node, name);
        let listed = catalog.type_named(&node.type_name).is_some();
        seen.when(node.kind == Kind::Struct && !listed, "a struct of an unlisted type");
        seen.when(listed && node.kind != Kind::Struct, "a listed type in another kind");
        seen.when(rust.struct_size(node).is_some(), "a struct read whole");
        let spoilt = node.kind == Kind::Struct && listed && rust.struct_size(node).is_none();
        seen.when(spoilt, "a struct not read whole");
        let other = catalog.type_named(&node.type_name).map(|t| u64::from(t.size));
        let differs = node.structure_size.is_some() && other.is_some() && other != node.structure_size;
        seen.when(differs, "a size other than the type's");
    }
    seen.when(reach::element_size(name, &rust).is_some(), "an array that runs");
    seen.when(reach::tokens(name).is_none(), "no tokens");
    ranges(&mut seen, &rust, name);
    seen
}

/// Whether there is a dot other than the one that ends a program part.
pub fn dotted(name: &str) -> bool {
    name.matches('.').count() > usize::from(has_program(name))
}

fn found(seen: &mut Features, node: &Node, name: &str) {
    let steps = crate::plc::reach::strip(name).matches('.').count();
    seen.when(node.member, "a member");
    seen.when(node.member && steps > 2, "three steps or more");
    seen.when(node.kind == Kind::Atomic, "atomic");
    seen.when(node.kind == Kind::Struct, "struct");
    seen.when(node.kind == Kind::String, "string");
    seen.when(node.kind != Kind::Atomic && node.structure_size.is_none(), "a size missing");
    seen.when(!node.dims.is_empty(), "an array");
    seen.when(node.dims.len() > 1, "several dimensions");
    seen.when(node.bool_array(), "a DWORD array");
    seen.when(node.type_name == "BOOL", "BOOL");
    let unknown = node.kind == Kind::Atomic && crate::plc::atomic_size(&node.type_name).is_none();
    seen.when(unknown, "an unknown atomic");
    match node.instance_id {
        None => seen.when(!node.member, "no instance id"),
        Some(0..256) => seen.when(true, "an instance id below 256"),
        Some(256..65_536) => seen.when(true, "an instance id from 256"),
        Some(_) => seen.when(true, "an instance id from 65,536"),
    }
}

fn ranges(seen: &mut Features, rust: &crate::plc::Catalog, name: &str) {
    let Some((base, _)) = reach::range(name) else {
        return;
    };
    let node = rust.info(base);
    seen.when(true, "a range");
    seen.when(node.is_none(), "a range of an unknown node");
    seen.when(node.is_some_and(|n| n.kind == Kind::Struct), "a range of structs");
    seen.when(node.is_some_and(|n| n.kind == Kind::String), "a range of strings");
    seen.when(node.is_some_and(|n| n.bool_array() || n.type_name == "BOOL"), "a range of bits");
}
