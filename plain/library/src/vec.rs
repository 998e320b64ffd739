//! Vectors.
use crate::alloc::{AllocError, AllocFailed, Global};
use std::cmp::Ordering;
use std::ops::{Deref, DerefMut};

#[derive(Debug, PartialEq, Eq, Hash)]
pub struct Vec<T>(pub(crate) std::vec::Vec<T>);

impl<T> Vec<T> {
    pub const fn new(_: Global) -> Self {
        Vec(std::vec::Vec::new())
    }
    pub fn with_capacity(_: Global, n: usize) -> Result<Self, AllocError> {
        let mut made = std::vec::Vec::new();
        made.try_reserve_exact(n).map_err(|_| AllocError)?;
        Ok(Vec(made))
    }
    pub fn allocator(&self) -> &Global {
        &Global
    }
    pub fn as_slice(&self) -> &[T] {
        &self.0
    }
    pub fn as_ref(&self) -> &[T] {
        &self.0
    }
    pub fn as_mut(&mut self) -> &mut [T] {
        &mut self.0
    }
    pub fn as_mut_slice(&mut self) -> &mut [T] {
        &mut self.0
    }
    pub fn capacity(&self) -> usize {
        self.0.capacity()
    }
    pub fn reserve(&mut self, n: usize) -> Result<(), AllocError> {
        self.0.try_reserve(n).map_err(|_| AllocError)
    }
    pub fn reserve_exact(&mut self, n: usize) -> Result<(), AllocError> {
        self.0.try_reserve_exact(n).map_err(|_| AllocError)
    }
    #[inline]
    pub fn push(&mut self, value: T) -> Result<(), AllocFailed<T>> {
        if self.0.len() == self.0.capacity() && self.0.try_reserve(1).is_err() {
            return Err(AllocFailed { value });
        }
        self.0.push(value);
        Ok(())
    }
    pub fn insert(&mut self, at: usize, value: T) -> Result<(), AllocFailed<T>> {
        if self.0.try_reserve(1).is_err() {
            return Err(AllocFailed { value });
        }
        self.0.insert(at, value);
        Ok(())
    }
    pub fn append(&mut self, other: &mut Vec<T>) -> Result<(), AllocError> {
        self.reserve(other.0.len())?;
        self.0.append(&mut other.0);
        Ok(())
    }
    pub fn pop(&mut self) -> Option<T> {
        self.0.pop()
    }
    pub fn remove(&mut self, at: usize) -> T {
        self.0.remove(at)
    }
    pub fn swap_remove(&mut self, at: usize) -> T {
        self.0.swap_remove(at)
    }
    pub fn truncate(&mut self, n: usize) {
        self.0.truncate(n)
    }
    pub fn clear(&mut self) {
        self.0.clear()
    }
    pub fn retain<F: FnMut(&T) -> bool>(&mut self, f: F) {
        self.0.retain(f)
    }
    pub fn dedup_by<F: FnMut(&mut T, &mut T) -> bool>(&mut self, f: F) {
        self.0.dedup_by(f)
    }
    pub fn dedup(&mut self)
    where
        T: PartialEq,
    {
        self.0.dedup()
    }
    pub fn sort(&mut self) -> Result<(), AllocError>
    where
        T: Ord,
    {
        self.0.sort();
        Ok(())
    }
    pub fn sort_by<F: FnMut(&T, &T) -> Ordering>(&mut self, f: F) -> Result<(), AllocError> {
        self.0.sort_by(f);
        Ok(())
    }
    pub fn from_slice(alloc: Global, items: &[T]) -> Result<Self, AllocError>
    where
        T: Copy,
    {
        let mut made = Vec::with_capacity(alloc, items.len())?;
        made.0.extend_from_slice(items);
        Ok(made)
    }
    pub fn from_elem(alloc: Global, item: T, n: usize) -> Result<Self, AllocError>
    where
        T: Copy,
    {
        let mut made = Vec::with_capacity(alloc, n)?;
        made.0.resize(n, item);
        Ok(made)
    }
    pub fn from_array<const N: usize>(alloc: Global, items: [T; N]) -> Result<Self, AllocError> {
        let mut made = Vec::with_capacity(alloc, N)?;
        made.0.extend(items);
        Ok(made)
    }
    pub fn extend_from_slice(&mut self, items: &[T]) -> Result<(), AllocError>
    where
        T: Copy,
    {
        self.reserve(items.len())?;
        self.0.extend_from_slice(items);
        Ok(())
    }
    pub fn resize(&mut self, n: usize, item: T) -> Result<(), AllocError>
    where
        T: Copy,
    {
        self.reserve(n.saturating_sub(self.0.len()))?;
        self.0.resize(n, item);
        Ok(())
    }
}

impl<T: crate::Clone> crate::Clone for Vec<T> {
    fn clone(&self) -> Result<Self, AllocError> {
        let mut made = Vec::with_capacity(Global, self.0.len())?;
        for it in &self.0 {
            made.0.push(it.clone()?);
        }
        Ok(made)
    }
}

impl<T> Deref for Vec<T> {
    type Target = [T];
    fn deref(&self) -> &[T] {
        &self.0
    }
}

impl<T> DerefMut for Vec<T> {
    fn deref_mut(&mut self) -> &mut [T] {
        &mut self.0
    }
}

impl<T> std::borrow::Borrow<[T]> for Vec<T> {
    fn borrow(&self) -> &[T] {
        &self.0
    }
}

impl AsRef<[u8]> for Vec<u8> {
    fn as_ref(&self) -> &[u8] {
        &self.0
    }
}

impl std::io::Write for Vec<u8> {
    fn write(&mut self, bytes: &[u8]) -> std::io::Result<usize> {
        self.extend_from_slice(bytes)?;
        Ok(bytes.len())
    }
    fn flush(&mut self) -> std::io::Result<()> {
        Ok(())
    }
}

impl<T> IntoIterator for Vec<T> {
    type Item = T;
    type IntoIter = std::vec::IntoIter<T>;
    fn into_iter(self) -> Self::IntoIter {
        self.0.into_iter()
    }
}

impl<'a, T> IntoIterator for &'a Vec<T> {
    type Item = &'a T;
    type IntoIter = std::slice::Iter<'a, T>;
    fn into_iter(self) -> Self::IntoIter {
        self.0.iter()
    }
}

impl<'a, T> IntoIterator for &'a mut Vec<T> {
    type Item = &'a mut T;
    type IntoIter = std::slice::IterMut<'a, T>;
    fn into_iter(self) -> Self::IntoIter {
        self.0.iter_mut()
    }
}

/// A copy of a slice as a vector.
pub trait SliceIn<T> {
    fn vec_in(&self, alloc: Global) -> Result<Vec<T>, AllocError>
    where
        T: Copy;
}

impl<T> SliceIn<T> for [T] {
    fn vec_in(&self, alloc: Global) -> Result<Vec<T>, AllocError>
    where
        T: Copy,
    {
        Vec::from_slice(alloc, self)
    }
}
