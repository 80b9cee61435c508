//! The oracle: the original tiling tree, unchanged, an independent model of
//! document 01, and generators of inputs for both.
//!
//! Where the original's sources were not at hand when this was built, the
//! module `original` is not there, and `the_original` answers nothing.

extern crate alloc;

pub mod check;
pub mod engine;
pub mod generate;
pub mod model;
#[cfg(original)]
pub mod original;
pub mod shrink;
pub mod value;
pub mod wire;

// The original's files name each other and their shims from the crate's root.
#[cfg(original)]
#[allow(dead_code, unused_imports)]
#[path = "original/counted.rs"]
mod counted;
#[cfg(original)]
#[allow(dead_code, unused_imports)]
#[path = "original/frame.rs"]
mod frame;
#[cfg(original)]
#[allow(dead_code)]
#[path = "original/snapshot.rs"]
mod snapshot;
#[cfg(original)]
#[allow(dead_code)]
#[path = "original/spec.rs"]
mod spec;
#[cfg(original)]
#[allow(dead_code, unused_imports)]
#[path = "original/tree.rs"]
mod tree;
#[cfg(original)]
#[allow(dead_code, unused_imports)]
#[path = "original/util.rs"]
mod util;

#[cfg(original)]
pub(crate) use frame::{
    FrameItemId, HitKind, HitRegion, LayoutFrame, PaneFrame, SplitChildFrame, SplitHandleFrame,
    TabBarFrame, TabFrame,
};
#[cfg(original)]
pub(crate) use kurbo::{Point, Rect, Size};
#[cfg(original)]
pub(crate) use original::shims::{
    Axis, DockTarget, LayoutInput, PaneId, Placement, Revision, SplitConstraints, SplitNode,
    TabBarPlacement, TabNode, TileError, TileId, TileNode, TileOp,
};
#[cfg(original)]
pub(crate) use snapshot::{LayoutSnapshot, RestoreOutcome, restore_snapshot};
#[cfg(original)]
pub(crate) use spec::{TileSpec, TileSpecError};
#[cfg(original)]
pub(crate) use tree::TileTree;

/// The original as an implementation, if its sources were at hand.
pub fn the_original() -> Option<Box<dyn engine::Engine>> {
    #[cfg(original)]
    return Some(Box::new(original::Original));
    #[cfg(not(original))]
    return None;
}
