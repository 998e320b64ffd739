//! The real `anyhow`.
pub use ::anyhow::{bail, Context, Error, Result};
