use crate::alloc::{AllocError, AllocFailed, Global};
use crate::collections::HashMap;
use crate::vec::Vec;
use std::hash::Hash;

/// A map that keeps the order in which its keys came.
#[derive(Debug)]
pub struct IndexMap<K, V> {
    places: HashMap<K, usize>,
    values: Vec<(K, V)>,
}

impl<K: Eq + Hash + Copy, V> IndexMap<K, V> {
    pub fn new(alloc: Global) -> Self {
        IndexMap { places: HashMap::new(alloc), values: Vec::new(alloc) }
    }
    pub fn with_capacity(alloc: Global, n: usize) -> Result<Self, AllocError> {
        Ok(IndexMap { places: HashMap::with_capacity(alloc, n)?, values: Vec::with_capacity(alloc, n)? })
    }
    pub fn reserve(&mut self, n: usize) -> Result<(), AllocError> {
        self.places.reserve(n)?;
        self.values.reserve(n)
    }
    pub fn len(&self) -> usize {
        self.values.len()
    }
    pub fn get(&self, key: &K) -> Option<&V> {
        self.places.get(key).map(|at| &self.values[*at].1)
    }
    pub fn get_mut(&mut self, key: &K) -> Option<&mut V> {
        match self.places.get(key) {
            None => None,
            Some(at) => Some(&mut self.values[*at].1),
        }
    }
    pub fn contains_key(&self, key: &K) -> bool {
        self.places.contains_key(key)
    }
    pub fn insert(&mut self, key: K, value: V) -> Result<Option<V>, AllocFailed<(K, V)>> {
        if let Some(at) = self.places.get(&key) {
            return Ok(Some(std::mem::replace(&mut self.values[*at].1, value)));
        }
        if self.places.reserve(1).is_err() {
            return Err(AllocFailed { value: (key, value) });
        }
        let at = self.values.len();
        self.values.push((key, value))?;
        let _ = self.places.insert(key, at);
        Ok(None)
    }
    pub fn iter(&self) -> impl Iterator<Item = (&K, &V)> {
        self.values.iter().map(|(key, value)| (key, value))
    }
    pub fn keys(&self) -> impl Iterator<Item = &K> {
        self.values.iter().map(|it| &it.0)
    }
}

#[derive(Debug)]
pub struct IndexSet<K>(IndexMap<K, ()>);

impl<K: Eq + Hash + Copy> IndexSet<K> {
    pub fn new(alloc: Global) -> Self {
        IndexSet(IndexMap::new(alloc))
    }
    pub fn len(&self) -> usize {
        self.0.len()
    }
    pub fn contains(&self, key: &K) -> bool {
        self.0.contains_key(key)
    }
    pub fn insert(&mut self, key: K) -> Result<bool, AllocFailed<K>> {
        match self.0.insert(key, ()) {
            Ok(old) => Ok(old.is_none()),
            Err(refused) => Err(AllocFailed { value: refused.value.0 }),
        }
    }
    pub fn iter(&self) -> impl Iterator<Item = &K> {
        self.0.keys()
    }
}
