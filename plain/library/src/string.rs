//! Text that grows.
use crate::alloc::{AllocError, Global};
use std::ops::Deref;

#[derive(Debug, PartialEq, Eq, Hash, PartialOrd, Ord)]
pub struct String(pub(crate) std::string::String);

impl String {
    pub fn new(_: Global) -> Self {
        String(std::string::String::new())
    }
    pub fn with_capacity(_: Global, n: usize) -> Result<Self, AllocError> {
        let mut made = std::string::String::new();
        made.try_reserve_exact(n).map_err(|_| AllocError)?;
        Ok(String(made))
    }
    pub fn from_str(alloc: Global, text: &str) -> Result<Self, AllocError> {
        let mut made = String::with_capacity(alloc, text.len())?;
        made.0.push_str(text);
        Ok(made)
    }
    pub fn as_str(&self) -> &str {
        &self.0
    }
    pub fn push(&mut self, c: char) -> Result<(), AllocError> {
        self.0.try_reserve(4).map_err(|_| AllocError)?;
        self.0.push(c);
        Ok(())
    }
    pub fn push_str(&mut self, text: &str) -> Result<(), AllocError> {
        self.0.try_reserve(text.len()).map_err(|_| AllocError)?;
        self.0.push_str(text);
        Ok(())
    }
}

impl std::fmt::Display for String {
    fn fmt(&self, f: &mut std::fmt::Formatter<'_>) -> std::fmt::Result {
        f.write_str(&self.0)
    }
}

impl Deref for String {
    type Target = str;
    fn deref(&self) -> &str {
        &self.0
    }
}

impl crate::Clone for String {
    fn clone(&self) -> Result<Self, AllocError> {
        String::from_str(Global, &self.0)
    }
}
