//! The real `itoa`.
pub use ::itoa::Buffer;
