//! The lookups of one name in a catalog: its definition, and the sizes that follow from it.

use crate::bytes::Writer;
use crate::catalog::{ATOMIC, Catalog, STRING, STRUCT, write_shape};
use crate::names::text;
use crate::planner::reach;
use crate::plc::Kind;

/// Byte 0 for none, or byte 1 and the node without its name.
pub fn info(catalog: &[u8], name: &[u8]) -> Result<Vec<u8>, String> {
    let catalog = Catalog::read(catalog)?.to_rust();
    let mut writer = Writer::default();
    let Some(node) = catalog.info(&text(name)?) else {
        return Ok(vec![0]);
    };
    let kind = match node.kind {
        Kind::Atomic => ATOMIC,
        Kind::Struct => STRUCT,
        Kind::String => STRING,
    };
    let dims: Vec<u32> = node.dims.iter().map(|d| *d as u32).collect();
    let size = node.structure_size.map(|s| s as u16);
    writer.number(1, 1);
    write_shape(&mut writer, &node.type_name, kind, &dims, node.instance_id, size);
    Ok(writer.file)
}

/// Request and reply of a read (8 bytes each), then the size of an element of a run and the size of a struct read
/// whole, each byte 0, or byte 1 and 8 bytes.
pub fn sizes(catalog: &[u8], name: &[u8]) -> Result<Vec<u8>, String> {
    let catalog = Catalog::read(catalog)?.to_rust();
    let name = text(name)?;
    let (request, reply) = reach::read_size(&name, &catalog);
    let element = reach::element_size(&name, &catalog).map(|n| n as u64);
    let whole = catalog.info(&name).and_then(|node| catalog.struct_size(node));
    let mut writer = Writer::default();
    writer.count(8, request).count(8, reply).optional(8, element).optional(8, whole);
    Ok(writer.file)
}
