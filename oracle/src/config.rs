//! Stands in for the server's configuration, of which plc.rs names one type.

use std::path::PathBuf;

/// Where a controller is.
pub struct PlcConfig {
    pub name: String,
    pub path: String,
    pub tag_cache_file: Option<PathBuf>,
}
