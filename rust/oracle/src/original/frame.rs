//! The original's frame.rs, unchanged.
use crate::original::shims::Finite;
include!(concat!(env!("UNDERSTORY_SRC"), "/frame.rs"));
