//! The library beside the original and the model.

#[cfg(original)]
pub mod bench;
pub mod columns;
pub mod convert;
pub mod fuzz;
pub mod host;
pub mod library;
pub mod stream;
