//! Collections from iterators.
pub use std::iter::*;

use crate::alloc::{AllocError, Global};
use crate::vec::Vec;

pub trait FromIterIn<T>: Sized {
    fn from_iter_in<I: Iterator<Item = T>>(alloc: Global, it: I) -> Result<Self, AllocError>;
}

impl<T> FromIterIn<T> for Vec<T> {
    fn from_iter_in<I: Iterator<Item = T>>(alloc: Global, it: I) -> Result<Self, AllocError> {
        let mut made = Vec::with_capacity(alloc, it.size_hint().0)?;
        for one in it {
            made.push(one)?;
        }
        Ok(made)
    }
}

pub trait CollectIn: Iterator {
    fn collect_in<C: FromIterIn<Self::Item>>(self, alloc: Global) -> Result<C, AllocError>
    where
        Self: Sized,
    {
        C::from_iter_in(alloc, self)
    }
}

impl<I: Iterator> CollectIn for I {}
