//! Small builders of nodes and types for cases made by hand.

use crate::catalog::{ATOMIC, Node, STRING, STRUCT, Type};

pub fn atomic(name: &str, type_name: &str, dims: &[u32]) -> Node {
    Node {
        name: name.to_owned(),
        type_name: type_name.to_owned(),
        kind: ATOMIC,
        dims: dims.to_vec(),
        ..Node::default()
    }
}

pub fn structure(name: &str, type_name: &str, size: u16, dims: &[u32]) -> Node {
    Node { kind: STRUCT, size: Some(size), ..atomic(name, type_name, dims) }
}

pub fn string(name: &str) -> Node {
    Node { kind: STRING, size: Some(88), ..atomic(name, "STRING", &[]) }
}

pub fn with_id(id: u32, node: Node) -> Node {
    Node { instance: Some(id), ..node }
}

pub fn type_of(name: &str, size: u16, members: Vec<Node>) -> Type {
    Type { name: name.to_owned(), size, aoi: 0, members }
}

pub fn motor_type(size: u16) -> Type {
    type_of("Motor", size, vec![atomic("Speed", "DINT", &[]), atomic("Amps", "REAL", &[])])
}

pub fn texts(names: &[&str]) -> Vec<String> {
    names.iter().map(|n| n.to_string()).collect()
}
