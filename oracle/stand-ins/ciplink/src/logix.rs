//! The driver's types, with bodies that stop the program: the oracle talks to no controller.

/// The types of tags and their members.
pub mod types {
    pub struct Template {
        pub structure_size: u32,
    }

    pub struct MemberInfo {
        pub array: Option<u32>,
        pub data_type: TypeRef,
    }

    pub struct DataType {
        pub name: Option<String>,
        pub string: Option<u32>,
        pub template: Template,
        pub internal_tags: Vec<(String, MemberInfo)>,
        pub attributes: Vec<String>,
    }

    pub enum TypeRef {
        Atomic(String),
        Struct(Box<DataType>),
    }

    impl TypeRef {
        pub fn name(&self) -> Option<&str> {
            match self {
                TypeRef::Atomic(name) => Some(name),
                TypeRef::Struct(data_type) => data_type.name.as_deref(),
            }
        }
    }
}

/// What an upload brings.
pub mod metadata {
    use super::types::{DataType, TypeRef};

    pub enum TextEncoding {
        Utf8,
    }

    pub struct Probe {
        pub whole_read: bool,
        pub readable: Vec<String>,
    }

    pub struct TagInfo {
        pub dim: u8,
        pub dimensions: [u32; 3],
        pub data_type: TypeRef,
        pub instance_id: u32,
    }

    pub struct Definitions {
        pub tags: Vec<(String, TagInfo)>,
        pub data_types: Vec<(Option<String>, DataType)>,
        pub probes: Vec<(DataType, Probe)>,
    }
}

/// The connection.
pub mod driver {
    use std::path::PathBuf;

    use super::metadata::{Definitions, TextEncoding};
    use crate::Value;
    use crate::cip::TagResult;

    const NEVER: &str = "the oracle talks to no controller";

    #[derive(Default)]
    pub struct LogixOptions {
        pub tag_cache_file: Option<PathBuf>,
    }

    pub struct LogixDriver;

    impl LogixDriver {
        pub fn new(_path: &str, _options: LogixOptions) -> Result<Self, String> {
            unreachable!("{NEVER}")
        }

        pub fn open(&mut self) -> Result<(), String> {
            unreachable!("{NEVER}")
        }

        pub fn close(&mut self) -> Result<(), String> {
            unreachable!("{NEVER}")
        }

        pub fn read(&mut self, _tags: &[&str]) -> Result<Vec<TagResult>, String> {
            unreachable!("{NEVER}")
        }

        pub fn write(&mut self, _tags: &[(&str, Value)]) -> Result<Vec<TagResult>, String> {
            unreachable!("{NEVER}")
        }

        pub fn definitions(&self) -> Definitions {
            unreachable!("{NEVER}")
        }

        pub fn tag_table_version(&mut self) -> Option<(u64, u64, u64, u64, u64)> {
            unreachable!("{NEVER}")
        }

        pub fn connection_size(&self) -> u16 {
            unreachable!("{NEVER}")
        }

        pub fn get_tag_descriptions(
            &mut self,
            _tags: &[&str],
            _language: u16,
            _encoding: TextEncoding,
        ) -> Result<Vec<TagResult>, String> {
            unreachable!("{NEVER}")
        }
    }
}
