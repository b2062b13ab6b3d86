//! The margin kit called from Rust, a plain implementation of the same rules, and what holds the two together.

pub mod asked;
pub mod kit;
pub mod plain;
pub mod processor;
pub mod sheets;
pub mod together;
