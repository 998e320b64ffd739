//! The real `indexmap`, by calls that are passed an allocator. It ends the process where there is no memory.
use crate::alloc::{AllocError, AllocFailed, Global};
use crate::hashing::QuickBuilder;
use std::hash::Hash;

/// A map that keeps the order in which its keys came.
#[derive(Debug)]
pub struct IndexMap<K, V>(::indexmap::IndexMap<K, V, QuickBuilder>);

impl<K: Eq + Hash, V> IndexMap<K, V> {
    pub fn new(_: Global) -> Self {
        IndexMap(::indexmap::IndexMap::with_hasher(QuickBuilder))
    }
    pub fn with_capacity(_: Global, n: usize) -> Result<Self, AllocError> {
        Ok(IndexMap(::indexmap::IndexMap::with_capacity_and_hasher(n, QuickBuilder)))
    }
    pub fn reserve(&mut self, n: usize) -> Result<(), AllocError> {
        self.0.reserve(n);
        Ok(())
    }
    pub fn len(&self) -> usize {
        self.0.len()
    }
    pub fn is_empty(&self) -> bool {
        self.0.is_empty()
    }
    pub fn get(&self, key: &K) -> Option<&V> {
        self.0.get(key)
    }
    pub fn get_mut(&mut self, key: &K) -> Option<&mut V> {
        self.0.get_mut(key)
    }
    pub fn contains_key(&self, key: &K) -> bool {
        self.0.contains_key(key)
    }
    pub fn insert(&mut self, key: K, value: V) -> Result<Option<V>, AllocFailed<(K, V)>> {
        Ok(self.0.insert(key, value))
    }
    pub fn iter(&self) -> impl Iterator<Item = (&K, &V)> {
        self.0.iter()
    }
    pub fn keys(&self) -> impl Iterator<Item = &K> {
        self.0.keys()
    }
}

/// A set that keeps the order in which its keys came.
#[derive(Debug)]
pub struct IndexSet<K>(IndexMap<K, ()>);

impl<K: Eq + Hash> IndexSet<K> {
    pub fn new(alloc: Global) -> Self {
        IndexSet(IndexMap::new(alloc))
    }
    pub fn len(&self) -> usize {
        self.0.len()
    }
    pub fn is_empty(&self) -> bool {
        self.0.is_empty()
    }
    pub fn contains(&self, key: &K) -> bool {
        self.0.contains_key(key)
    }
    pub fn insert(&mut self, key: K) -> Result<bool, AllocFailed<K>> {
        match self.0.insert(key, ()) {
            Ok(old) => Ok(old.is_none()),
            Err(refused) => Err(AllocFailed { value: refused.value.0 }),
        }
    }
    pub fn iter(&self) -> impl Iterator<Item = &K> {
        self.0.keys()
    }
}
