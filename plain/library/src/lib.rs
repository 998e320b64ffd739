//! What the editor uses of Rattle's library, written over Rust's own. Nothing of the toolkit is in it, and nothing of it is
//! proved.
//!
//! In Rattle whatever allocates is passed an allocator and returns a `Result`, so collections here have those signatures.
//! Vectors, strings and hash maps answer want of memory with an error. Boxes, `Rc` and the ordered maps can't in stable
//! Rust: there the process ends.
#![forbid(unsafe_code)]

pub mod alloc;
pub mod anyhow;
pub mod boxed;
pub mod clap;
pub mod collections;
pub mod env;
pub mod fs;
pub mod indexmap;
pub mod io;
pub mod iter;
pub mod itoa;
pub mod jiff;
pub mod memchr;
pub mod rc;
pub mod rt;
pub mod string;
pub mod test;
pub mod vec;

mod hashing;
mod macros;

pub use std::{cell, cmp, fmt, hash, marker, mem, ops, process, slice, str};

/// The names that are in scope in Rattle without an import.
pub mod prelude {
    pub use crate::io::WriteLine;
    pub use crate::iter::CollectIn;
    pub use crate::rt::HostRuntime;
    pub use crate::string::String;
    pub use crate::vec::{SliceIn, Vec};
    pub use crate::Clone;
}

/// A clone that can fail for want of memory.
pub trait Clone: Sized {
    fn clone(&self) -> Result<Self, alloc::AllocError>;
}

macro_rules! plain_data {
    ($($t:ty)*) => { $(impl Clone for $t {
        fn clone(&self) -> Result<Self, alloc::AllocError> {
            Ok(*self)
        }
    })* };
}
plain_data!(() u8 u16 u32 u64 usize i8 i16 i32 i64 bool char);

impl<A: Clone, B: Clone> Clone for (A, B) {
    fn clone(&self) -> Result<Self, alloc::AllocError> {
        Ok((self.0.clone()?, self.1.clone()?))
    }
}

impl<T: Clone> Clone for Option<T> {
    fn clone(&self) -> Result<Self, alloc::AllocError> {
        match self {
            None => Ok(None),
            Some(it) => Ok(Some(it.clone()?)),
        }
    }
}

impl<T: Clone> Clone for Box<T> {
    fn clone(&self) -> Result<Self, alloc::AllocError> {
        Ok(Box::new((**self).clone()?))
    }
}
