//! What `compare` and `bench` share: the archive's functions, document 01's numbers for the crate's values, and games.

#[cfg(not(feature = "planted"))]
pub mod abi;
#[cfg(feature = "planted")]
#[path = "planted.rs"]
pub mod abi;

pub mod games;
pub mod numbers;
pub mod random;
