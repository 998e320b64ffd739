//! Boxes.
use crate::alloc::{AllocFailed, Global};

/// Rust's own boxes end the process where there is no memory.
pub fn new<T>(_: Global, value: T) -> Result<Box<T>, AllocFailed<T>> {
    Ok(Box::new(value))
}

pub fn into_inner<T>(it: Box<T>) -> T {
    *it
}
