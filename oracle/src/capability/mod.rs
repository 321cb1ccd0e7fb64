//! Shim: the one module of `capability` that is carried.

pub mod cache;
