//! A second implementation of the quota circuit engine, and its comparison with the first.

pub mod engine;
#[cfg(engine)]
pub mod ffi;
pub mod gen;
pub mod guarded;
pub mod harness;
pub mod mock;
pub mod model;
pub mod rng;
pub mod run;
