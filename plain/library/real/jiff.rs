//! The real `jiff`.
pub mod civil {
    pub use ::jiff::civil::Date;
}
