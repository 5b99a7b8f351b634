//! The catalog file, as a list of nodes and types and as the Rust's `Catalog`. A file is taken only if the port
//! would accept it; `check` has the rules that go beyond one field.

use indexmap::IndexMap;
use serde_json::Value as Json;

use crate::bytes::{Reader, Writer};
use crate::plc;

pub const LIMIT: usize = 65_536;
pub const MOST_TAGS: usize = 1024;
pub const MOST_TYPES: usize = 128;
pub const MOST_MEMBERS: usize = 256;
pub const TEXT: usize = 128;

/// The kinds of a node, as the file numbers them.
pub const ATOMIC: u8 = 0;
pub const STRUCT: u8 = 1;
pub const STRING: u8 = 2;

/// A tag or a member.
#[derive(Clone, Debug, Default, PartialEq, Eq)]
pub struct Node {
    pub name: String,
    pub type_name: String,
    pub kind: u8,
    pub dims: Vec<u32>,
    pub instance: Option<u32>,
    pub size: Option<u16>,
}

/// A structure type; `aoi` is 0 for none, 1 for one that reads whole, 2 for one that does not.
#[derive(Clone, Debug, Default, PartialEq, Eq)]
pub struct Type {
    pub name: String,
    pub size: u16,
    pub aoi: u8,
    pub members: Vec<Node>,
}

#[derive(Clone, Debug, Default, PartialEq, Eq)]
pub struct Catalog {
    pub tags: Vec<Node>,
    pub types: Vec<Type>,
}

/// What the Rust's catalog is made of.
pub type Parts = (IndexMap<String, plc::Node>, IndexMap<String, plc::TypeDef>);

impl Catalog {
    pub fn read(file: &[u8]) -> Result<Self, String> {
        let mut reader = Reader::versioned(file, LIMIT).map_err(|e| format!("catalog: {e}"))?;
        let catalog = read_all(&mut reader).map_err(|e| format!("catalog: {e}"))?;
        catalog.check().map_err(|e| format!("catalog: {e}"))?;
        Ok(catalog)
    }

    pub fn write(&self) -> Vec<u8> {
        let mut writer = Writer::versioned();
        writer.count(2, self.tags.len()).count(2, self.types.len());
        for tag in &self.tags {
            write_node(&mut writer, tag);
        }
        for t in &self.types {
            writer.text(&t.name).number(2, t.size.into());
            writer.number(1, t.aoi.into()).count(2, t.members.len());
            for member in &t.members {
                write_node(&mut writer, member);
            }
        }
        writer.file
    }

    /// The same as the Rust holds it.
    pub fn to_rust(&self) -> plc::Catalog {
        let (tags, types) = self.parts();
        plc::Catalog::new(Json::Null, tags, types)
    }

    /// The tags and the types that the Rust makes its catalog of.
    pub fn parts(&self) -> Parts {
        let tags = self.tags.iter().map(|t| (t.name.clone(), node(t, false)));
        let types = self.types.iter().map(|t| (t.name.clone(), type_def(t)));
        (tags.collect(), types.collect())
    }

    pub fn type_named(&self, name: &str) -> Option<&Type> {
        self.types.iter().find(|t| t.name == name)
    }

    /// Names alike and nesting: what no single field shows.
    pub fn check(&self) -> Result<(), String> {
        alike(self.tags.iter().map(|t| t.name.to_ascii_lowercase()))?;
        alike(self.types.iter().map(|t| t.name.clone()))?;
        for t in &self.types {
            alike(t.members.iter().map(|m| m.name.to_ascii_lowercase()))?;
        }
        match self.depth() > 16 {
            true => Err("types nested over 16".to_owned()),
            false => Ok(()),
        }
    }

    /// The longest chain of listed types, 17 standing for more than 16.
    pub fn depth(&self) -> usize {
        let mut depths = vec![1; self.types.len()];
        for _ in 0..16 {
            let deeper = |t: &Type| {
                let inner = t.members.iter().filter(|m| m.kind == STRUCT);
                let place = |m: &Node| self.types.iter().position(|t| t.name == m.type_name);
                inner.filter_map(place).map(|p| depths[p]).max().unwrap_or(0) + 1
            };
            depths = self.types.iter().map(deeper).collect();
        }
        depths.into_iter().max().unwrap_or(0)
    }
}

fn alike(names: impl Iterator<Item = String>) -> Result<(), String> {
    let mut seen = std::collections::HashSet::new();
    for name in names {
        if seen.contains(&name) {
            return Err(format!("two names alike: {name:?}"));
        }
        seen.insert(name);
    }
    Ok(())
}

fn read_all(reader: &mut Reader) -> Result<Catalog, String> {
    let tags = reader.count(2, MOST_TAGS)?;
    let types = reader.count(2, MOST_TYPES)?;
    let catalog = Catalog {
        tags: (0..tags).map(|_| read_node(reader)).collect::<Result<_, _>>()?,
        types: (0..types).map(|_| read_type(reader)).collect::<Result<_, _>>()?,
    };
    reader.end()?;
    Ok(catalog)
}

fn read_node(reader: &mut Reader) -> Result<Node, String> {
    let (name, type_name) = (reader.text(TEXT)?, reader.text(TEXT)?);
    let kind = reader.limited(1, 2)? as u8;
    let dims = reader.count(1, 3)?;
    Ok(Node {
        name,
        type_name,
        kind,
        dims: (0..dims).map(|_| Ok(reader.limited(4, 1_000_000)? as u32)).collect::<Result<_, String>>()?,
        instance: reader.optional(4)?.map(|n| n as u32),
        size: reader.optional(2)?.map(|n| n as u16),
    })
}

fn read_type(reader: &mut Reader) -> Result<Type, String> {
    let name = reader.text(TEXT)?;
    let size = reader.number(2)? as u16;
    let aoi = reader.limited(1, 2)? as u8;
    let members = reader.count(2, MOST_MEMBERS)?;
    Ok(Type { name, size, aoi, members: (0..members).map(|_| read_node(reader)).collect::<Result<_, _>>()? })
}

fn write_node(writer: &mut Writer, node: &Node) {
    writer.text(&node.name);
    let kind = node.kind;
    write_shape(writer, &node.type_name, kind, &node.dims, node.instance, node.size);
}

/// A node without its name.
pub fn write_shape(
    writer: &mut Writer,
    type_name: &str,
    kind: u8,
    dims: &[u32],
    instance: Option<u32>,
    size: Option<u16>,
) {
    writer.text(type_name).number(1, kind.into()).count(1, dims.len());
    for dim in dims {
        writer.number(4, u64::from(*dim));
    }
    writer.optional(4, instance.map(u64::from)).optional(2, size.map(u64::from));
}

fn node(node: &Node, member: bool) -> plc::Node {
    plc::Node {
        type_name: node.type_name.clone(),
        kind: match node.kind {
            ATOMIC => plc::Kind::Atomic,
            STRUCT => plc::Kind::Struct,
            _ => plc::Kind::String,
        },
        dims: node.dims.iter().map(|d| u64::from(*d)).collect(),
        member,
        instance_id: node.instance,
        structure_size: node.size.map(u64::from),
    }
}

fn type_def(t: &Type) -> plc::TypeDef {
    let members: IndexMap<String, plc::Node> = t.members.iter().map(|m| (m.name.clone(), node(m, true))).collect();
    plc::TypeDef {
        public: members.keys().cloned().collect(),
        members,
        structure_size: t.size.into(),
        aoi: (t.aoi != 0).then(|| plc::Aoi { whole_read: t.aoi == 1, readable: Vec::new() }),
        whole_readable: true,
    }
}
