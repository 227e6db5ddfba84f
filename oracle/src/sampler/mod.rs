//! The three files of the sampler that the oracle carries.

pub mod common;
pub mod genetic;
pub mod nsga3;
