//! The real `memchr`.
pub use ::memchr::{memchr, memchr_iter};
