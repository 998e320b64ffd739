//! Errors that are only told.
pub use crate::bail;

pub struct Error(pub std::string::String);

pub type Result<T, E = Error> = std::result::Result<T, E>;

impl<E: std::error::Error> From<E> for Error {
    fn from(error: E) -> Error {
        Error(error.to_string())
    }
}

impl std::fmt::Debug for Error {
    fn fmt(&self, f: &mut std::fmt::Formatter<'_>) -> std::fmt::Result {
        f.write_str(&self.0)
    }
}

pub trait Context<T> {
    fn context(self, text: &str) -> Result<T>;
}

impl<T> Context<T> for Option<T> {
    fn context(self, text: &str) -> Result<T> {
        self.ok_or_else(|| Error(text.into()))
    }
}

/// Ends the function with an error of this text.
#[macro_export]
macro_rules! bail {
    ($($said:tt)*) => {
        return Err($crate::anyhow::Error(::std::format!($($said)*)).into())
    };
}
