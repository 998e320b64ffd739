//! The words of the process.
use crate::alloc::Global;
use crate::string::String;

/// The words of the process.
pub fn args(_: &crate::rt::HostRuntime) -> std::io::Result<impl Iterator<Item = String>> {
    let mut words = std::vec::Vec::new();
    for it in std::env::args_os() {
        match it.into_string() {
            Ok(text) => words.push(String::from_str(Global, &text)?),
            Err(_) => return Err(std::io::Error::from(std::io::ErrorKind::InvalidData)),
        }
    }
    Ok(words.into_iter())
}
