//! Files, the error stream and standard output.
pub use std::io::{Cursor, Error, ErrorKind, Read, Result, Write};

use crate::rt::HostRuntime;

/// Standard output.
pub fn writer(_: &HostRuntime) -> std::io::Stdout {
    std::io::stdout()
}

/// Writes a line as one piece.
pub fn write_line(_: &HostRuntime, mut to: impl Write, said: std::fmt::Arguments<'_>) -> Result<()> {
    to.writeln(said)
}

/// Lines of any writer.
pub trait WriteLine: Write {
    /// Writes a line as one piece.
    fn writeln(&mut self, said: std::fmt::Arguments<'_>) -> Result<()> {
        let mut text = said.to_string();
        text.push('\n');
        self.write_all(text.as_bytes())
    }
}

impl<W: Write> WriteLine for W {}
