//! The result of one read.

use crate::Value;

/// Why a read failed.
#[derive(Clone, Debug, PartialEq)]
pub struct TagError {
    pub message: String,
}

/// A value, an error, or neither. The oracle writes in `data_type` which read it came from.
#[derive(Clone, Debug, PartialEq)]
pub struct TagResult {
    pub tag: String,
    pub value: Option<Value>,
    pub data_type: Option<String>,
    pub error: Option<TagError>,
}
