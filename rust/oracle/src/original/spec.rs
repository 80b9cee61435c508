//! The original's spec.rs, unchanged.
include!(concat!(env!("UNDERSTORY_SRC"), "/spec.rs"));
