//! A window into plc.rs: it is compiled as a module inside it.

pub fn strip(name: &str) -> String {
    super::strip(name)
}
