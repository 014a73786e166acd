//! The archives that `rt lib` writes, as Rust code links them. Apart from the crate `calls`, so that what needs no archive builds without one.
pub mod monitor;
pub mod signature;
pub mod steps;
