//! A quick hasher for keys of a number or two. The seed is fixed, as that of the toolkit's maps is.
use std::hash::{BuildHasher, Hasher};

#[derive(Clone, Copy, Default, Debug)]
pub struct Quick(u64);

impl Hasher for Quick {
    fn finish(&self) -> u64 {
        self.0 ^ (self.0 >> 32)
    }
    fn write(&mut self, bytes: &[u8]) {
        for it in bytes {
            self.write_u64(u64::from(*it));
        }
    }
    fn write_u64(&mut self, n: u64) {
        self.0 = (self.0.rotate_left(5) ^ n).wrapping_mul(0x9e37_79b9_7f4a_7c15);
    }
}

#[derive(Clone, Copy, Default, Debug)]
pub struct QuickBuilder;

impl BuildHasher for QuickBuilder {
    type Hasher = Quick;
    fn build_hasher(&self) -> Quick {
        Quick(0)
    }
}
