//! Files, opened by the runtime.
pub use std::fs::File;

pub fn read_to_string(_: &crate::rt::HostRuntime, name: &str) -> std::io::Result<crate::string::String> {
    Ok(crate::string::String(std::fs::read_to_string(name)?))
}

pub fn open(_: &crate::rt::HostRuntime, name: &str) -> std::io::Result<File> {
    File::open(name)
}
