//! The names of the driver crate that the planner's source mentions. Values know where they stood in the file they
//! were read from, which is how the oracle tells what a cut reached; the driver itself is never run.

pub mod cip;
pub mod logix;

use std::ops::Deref;

use indexmap::IndexMap;

/// Something read from a value file and the place of its length field there.
#[derive(Clone, Debug, PartialEq)]
pub struct Placed<T> {
    pub place: usize,
    pub inner: T,
}

impl<T> Deref for Placed<T> {
    type Target = T;

    fn deref(&self) -> &T {
        &self.inner
    }
}

/// What a tag holds.
#[derive(Clone, Debug, PartialEq)]
pub enum Value {
    Bool(bool),
    SInt(i8),
    Int(i16),
    DInt(i32),
    LInt(i64),
    USInt(u8),
    UInt(u16),
    UDInt(u32),
    ULInt(u64),
    Real(f32),
    LReal(f64),
    String(String),
    Bytes(Vec<u8>),
    Array(Placed<Vec<Value>>),
    Struct(Placed<IndexMap<String, Value>>),
    /// A leaf of a value file: any bytes.
    Leaf(Placed<Vec<u8>>),
    /// A text of a value file: any bytes.
    Text(Placed<Vec<u8>>),
}

impl Value {
    /// The place of the length field, for a value that came from a file.
    pub fn place(&self) -> Option<usize> {
        match self {
            Value::Array(v) => Some(v.place),
            Value::Struct(v) => Some(v.place),
            Value::Leaf(v) | Value::Text(v) => Some(v.place),
            _ => None,
        }
    }
}
