//! Maps and sets.
pub use hash_map::HashMap;

use crate::alloc::{AllocError, AllocFailed, Global};
use crate::hashing::QuickBuilder;
use crate::iter::FromIterIn;
use std::hash::Hash;

pub mod hash_map {
    use super::*;
    pub use std::collections::hash_map::Entry;

    #[derive(Debug)]
    pub struct HashMap<K, V>(pub(crate) std::collections::HashMap<K, V, QuickBuilder>);

    impl<K: Eq + Hash, V> HashMap<K, V> {
        pub fn new(_: Global) -> Self {
            HashMap(std::collections::HashMap::with_hasher(QuickBuilder))
        }
        pub fn with_capacity(alloc: Global, n: usize) -> Result<Self, AllocError> {
            let mut made = HashMap::new(alloc);
            made.reserve(n)?;
            Ok(made)
        }
        pub fn reserve(&mut self, n: usize) -> Result<(), AllocError> {
            self.0.try_reserve(n).map_err(|_| AllocError)
        }
        pub fn len(&self) -> usize {
            self.0.len()
        }
        pub fn is_empty(&self) -> bool {
            self.0.is_empty()
        }
        pub fn clear(&mut self) {
            self.0.clear()
        }
        pub fn get(&self, key: &K) -> Option<&V> {
            self.0.get(key)
        }
        pub fn get_mut(&mut self, key: &K) -> Option<&mut V> {
            self.0.get_mut(key)
        }
        pub fn contains_key(&self, key: &K) -> bool {
            self.0.contains_key(key)
        }
        pub fn remove(&mut self, key: &K) -> Option<V> {
            self.0.remove(key)
        }
        pub fn insert(&mut self, key: K, value: V) -> Result<Option<V>, AllocFailed<(K, V)>> {
            if self.0.try_reserve(1).is_err() {
                return Err(AllocFailed { value: (key, value) });
            }
            Ok(self.0.insert(key, value))
        }
        pub fn entry(&mut self, key: K) -> Result<Entry<'_, K, V>, AllocFailed<K>> {
            if self.0.try_reserve(1).is_err() {
                return Err(AllocFailed { value: key });
            }
            Ok(self.0.entry(key))
        }
        pub fn keys(&self) -> std::collections::hash_map::Keys<'_, K, V> {
            self.0.keys()
        }
        pub fn values(&self) -> std::collections::hash_map::Values<'_, K, V> {
            self.0.values()
        }
        pub fn iter(&self) -> std::collections::hash_map::Iter<'_, K, V> {
            self.0.iter()
        }
    }

    impl<K: Eq + Hash + crate::Clone, V: crate::Clone> crate::Clone for HashMap<K, V> {
        fn clone(&self) -> Result<Self, AllocError> {
            let mut made = HashMap::with_capacity(Global, self.0.len())?;
            for (key, value) in &self.0 {
                made.0.insert(key.clone()?, value.clone()?);
            }
            Ok(made)
        }
    }
}

#[derive(Debug)]
pub struct HashSet<K>(std::collections::HashSet<K, QuickBuilder>);

impl<K: Eq + Hash> HashSet<K> {
    pub fn new(_: Global) -> Self {
        HashSet(std::collections::HashSet::with_hasher(QuickBuilder))
    }
    pub fn reserve(&mut self, n: usize) -> Result<(), AllocError> {
        self.0.try_reserve(n).map_err(|_| AllocError)
    }
    pub fn len(&self) -> usize {
        self.0.len()
    }
    pub fn contains<Q: Eq + Hash + ?Sized>(&self, key: &Q) -> bool
    where
        K: std::borrow::Borrow<Q>,
    {
        self.0.contains(key)
    }
    pub fn insert(&mut self, key: K) -> Result<bool, AllocFailed<K>> {
        if self.0.try_reserve(1).is_err() {
            return Err(AllocFailed { value: key });
        }
        Ok(self.0.insert(key))
    }
    pub fn remove(&mut self, key: &K) -> bool {
        self.0.remove(key)
    }
}

impl<K: Eq + Hash> FromIterIn<K> for HashSet<K> {
    fn from_iter_in<I: Iterator<Item = K>>(alloc: Global, it: I) -> Result<Self, AllocError> {
        let mut made = HashSet::new(alloc);
        for one in it {
            made.insert(one)?;
        }
        Ok(made)
    }
}

#[derive(Debug)]
pub struct BTreeMap<K, V>(std::collections::BTreeMap<K, V>);

impl<K: Ord, V> BTreeMap<K, V> {
    pub fn clear(&mut self) {
        self.0.clear()
    }
    pub fn new(_: Global) -> Self {
        BTreeMap(std::collections::BTreeMap::new())
    }
    pub fn len(&self) -> usize {
        self.0.len()
    }
    pub fn is_empty(&self) -> bool {
        self.0.is_empty()
    }
    pub fn get(&self, key: &K) -> Option<&V> {
        self.0.get(key)
    }
    pub fn get_mut(&mut self, key: &K) -> Option<&mut V> {
        self.0.get_mut(key)
    }
    pub fn contains_key(&self, key: &K) -> bool {
        self.0.contains_key(key)
    }
    pub fn insert(&mut self, key: K, value: V) -> Result<Option<V>, AllocFailed<(K, V)>> {
        Ok(self.0.insert(key, value))
    }
    pub fn remove(&mut self, key: &K) -> Option<V> {
        self.0.remove(key)
    }
    pub fn keys(&self) -> std::collections::btree_map::Keys<'_, K, V> {
        self.0.keys()
    }
}

#[derive(Debug)]
pub struct BTreeSet<K>(std::collections::BTreeSet<K>);

impl<K: Ord> BTreeSet<K> {
    pub fn clear(&mut self) {
        self.0.clear()
    }
    pub fn new(_: Global) -> Self {
        BTreeSet(std::collections::BTreeSet::new())
    }
    pub fn len(&self) -> usize {
        self.0.len()
    }
    pub fn is_empty(&self) -> bool {
        self.0.is_empty()
    }
    pub fn contains(&self, key: &K) -> bool {
        self.0.contains(key)
    }
    pub fn insert(&mut self, key: K) -> Result<bool, AllocFailed<K>> {
        Ok(self.0.insert(key))
    }
    pub fn remove(&mut self, key: &K) -> bool {
        self.0.remove(key)
    }
    pub fn pop_first(&mut self) -> Option<K> {
        self.0.pop_first()
    }
    pub fn first(&self) -> Option<&K> {
        self.0.first()
    }
}
