//! The original's util.rs, unchanged.
use crate::original::shims::Finite;
include!(concat!(env!("UNDERSTORY_SRC"), "/util.rs"));
