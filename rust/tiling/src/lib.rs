//! Tiling desks: splits, tab groups and panes, and where each stands.
//!
//! A safe face for the library `tiling_c`, whose every call is proved to answer
//! as document 01 says. The names are those of the crate `understory_tiling`,
//! so that a host of it changes its imports and little else; docs/DIFFERENCES.md
//! lists what is not the same.
//!
//! ```
//! use tiling::{Axis, LayoutInput, PaneId, Placement, Rect, Size, TileOp, TileTree};
//!
//! let mut tree = TileTree::single_pane(PaneId(1));
//! tree.apply(TileOp::SplitPane {
//!     pane: PaneId(1),
//!     axis: Axis::Horizontal,
//!     new_pane: PaneId(2),
//!     placement: Placement::After,
//!     share: 0.5,
//! })?;
//!
//! let frame = tree.layout(LayoutInput {
//!     bounds: Rect::new(0.0, 0.0, 800.0, 600.0),
//!     tab_bar_thickness: 28.0,
//!     split_handle_thickness: 6.0,
//!     min_pane_size: Size::new(80.0, 80.0),
//! })?;
//!
//! assert_eq!(frame.panes().len(), 2);
//! assert_eq!(frame.panes()[1].rect, Rect::new(403.0, 0.0, 800.0, 600.0));
//! # Ok::<(), tiling::TileError>(())
//! ```
//!
//! A whole desk is made from a spec:
//!
//! ```
//! use tiling::{Axis, PaneId, TileSpec, TileTree};
//!
//! let tree = TileTree::from_spec(TileSpec::split(
//!     Axis::Horizontal,
//!     [TileSpec::tabs([PaneId(1), PaneId(2)]), TileSpec::tabs([PaneId(3), PaneId(4)])],
//!     [0.6, 0.4],
//! ))?;
//!
//! assert_eq!(tree.panes().collect::<Vec<_>>(), [PaneId(1), PaneId(2), PaneId(3), PaneId(4)]);
//! # Ok::<(), tiling::TileError>(())
//! ```
//!
//! A tree has room for 64 tiles, and a list for 16 entries. What goes beyond is
//! refused, and a refused change leaves the tree as it was.

#![no_std]
#![warn(missing_docs)]
#![deny(unsafe_code)]

extern crate alloc;

pub mod arena;
pub mod boundary;

mod buffer;
mod error;
#[allow(unsafe_code)]
mod ffi;
mod frame;
mod geometry;
mod ids;
mod model;
mod ops;
mod panes;
mod repair;
mod solver;
mod spec;
mod tree;

pub use arena::Arena;
pub use buffer::FrameBuffer;
pub use error::{TileError, TileSpecError};
pub use frame::{
    FrameEntry, FrameItemId, LayoutFrame, PaneFrame, SplitChildFrame, SplitHandleFrame,
    TabBarFrame, TabFrame,
};
pub use geometry::{Rect, Size};
pub use ids::{PaneId, Revision, TileId};
pub use model::{
    Axis, LayoutInput, PaneNode, Placement, SplitConstraints, SplitNode, TabBarPlacement, TabNode,
    TileNode,
};
pub use ops::{DockTarget, TileOp};
pub use panes::Panes;
pub use repair::RepairAction;
pub use solver::{Solution, solve};
pub use spec::TileSpec;
pub use tree::TileTree;
