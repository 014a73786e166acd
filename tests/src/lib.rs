//! The exported calls beside an independent implementation.
pub mod bytes;
pub mod canaries;
pub mod cases;
pub mod compare;
pub mod demand;
pub mod digests;
pub mod emulated;
pub mod faults;
pub mod guarded;
pub mod hasher;
pub mod hypervisor;
pub mod lender;
pub mod library;
pub mod lists;
pub mod mapping;
pub mod monitor;
pub mod outcome;
pub mod processor;
pub mod program;
pub mod reference;
pub mod replay;
pub mod runner;
pub mod sha256;

pub use ::library::signature;
pub use calls::random;
