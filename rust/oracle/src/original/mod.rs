//! The original, compiled unchanged from where UNDERSTORY_SRC says, and its
//! answers in the shape of document 01.

pub(crate) mod shims;

mod convert;
mod engine;
mod frames;
mod history;
pub mod own;
mod table;

pub use engine::{Original, bare_apply};
pub use history::History;
