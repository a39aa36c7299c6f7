//! STAND-IN for the registry's `failure`: the trait that error.rs derives, and nothing else of it.

pub use failure_derive::Fail;

/// An error with a text for people.
pub trait Fail: std::fmt::Debug + std::fmt::Display + Send + Sync + 'static {}
