//! The original's snapshot.rs, unchanged.
include!(concat!(env!("UNDERSTORY_SRC"), "/snapshot.rs"));
