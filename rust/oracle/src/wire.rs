//! The one format of the stored answers (docs/VECTORS.md), which also serves to
//! compare: two answers agree exactly when they are written alike.

use crate::value::{
    Action, Axis, DockTarget, Frame, FrameItemId, Kind, LayoutAnswer, LayoutInput, List, Placement,
    Rect, Refusal, RepairAnswer, Slot, SolveAnswer, TabBarPlacement, TileId, TileOp, TileTree,
    TreeAnswer, same_slot_bits,
};

#[derive(Default)]
pub struct Writer {
    pub bytes: Vec<u8>,
}

impl Writer {
    /// Unsigned LEB128: seven bits a byte, low ones first.
    pub fn number(&mut self, mut number: u64) {
        while number >= 0x80 {
            self.bytes.push(number as u8 | 0x80);
            number >>= 7;
        }
        self.bytes.push(number as u8);
    }

    pub fn real(&mut self, real: f64) {
        self.bytes.extend(real.to_bits().to_le_bytes());
    }

    fn tile(&mut self, id: TileId) {
        self.number(id.slot);
    }

    fn flag(&mut self, flag: bool) {
        self.number(u64::from(flag));
    }

    /// The length, then the entries that exist (at most 16).
    fn list<T: Copy>(&mut self, list: &List<T>, entry: impl Fn(&mut Self, T)) {
        self.number(list.len);
        for &item in list.entries() {
            entry(self, item);
        }
    }

    pub fn reals(&mut self, list: &List<f64>) {
        self.list(list, Self::real);
    }

    fn slot(&mut self, at: usize, slot: &Slot) {
        self.number(at as u64);
        match slot.kind {
            Kind::Empty => self.number(0),
            Kind::Pane(pane) => {
                self.number(1);
                self.number(pane);
            }
            Kind::Tabs(placement) => {
                self.number(2);
                self.number(bar_number(placement));
                self.number(slot.active);
                self.list(&slot.panes, Self::number);
            }
            Kind::Split(axis) => {
                self.number(3);
                self.number(axis_number(axis));
                self.list(&slot.children, Self::tile);
                self.reals(&slot.shares);
                self.reals(&slot.minima);
            }
        }
    }

    fn slots<'a>(&mut self, slots: impl Iterator<Item = (usize, &'a Slot)>) {
        let slots: Vec<_> = slots.collect();
        self.number(slots.len() as u64);
        for (at, slot) in slots {
            self.slot(at, slot);
        }
    }

    /// Root, revision, and every occupied slot.
    pub fn tree(&mut self, tree: &TileTree) {
        self.tile(tree.root);
        self.number(tree.revision);
        self.slots(tree.slots.iter().enumerate().filter(|(_, slot)| !slot.is_empty()));
    }

    /// Root, revision, and every slot that is not as it was before.
    pub fn tree_after(&mut self, before: &TileTree, tree: &TileTree) {
        self.tile(tree.root);
        self.number(tree.revision);
        let differs = |at: usize, slot: &Slot| !same_slot_bits(slot, &before.slots[at]);
        self.slots(tree.slots.iter().enumerate().filter(|&(at, slot)| differs(at, slot)));
    }

    pub fn refusal(&mut self, refusal: Option<Refusal>) {
        let (number, details) = refusal.map_or((0, [0, 0]), |it| (it.number, it.details));
        self.number(number);
        self.number(details[0]);
        self.number(details[1]);
    }

    fn action(&mut self, action: Action) {
        let (kind, tile, pane) = match action {
            Action::RemovedInvalidNode(tile) => (1, tile, 0),
            Action::RepairedActiveTab(tile) => (2, tile, 0),
            Action::RepairedShares(tile) => (3, tile, 0),
            Action::RepairedConstraints(tile) => (4, tile, 0),
            Action::CollapsedSplit(tile) => (5, tile, 0),
            Action::RemovedDuplicatePane { pane, tile } => (6, tile, pane),
        };
        self.number(kind);
        self.tile(tile);
        self.number(pane);
    }

    pub fn op(&mut self, op: &TileOp) {
        match *op {
            TileOp::Activate { pane } => {
                self.number(0);
                self.number(pane);
            }
            TileOp::Close { pane } => {
                self.number(1);
                self.number(pane);
            }
            TileOp::SplitPane { pane, axis, new_pane, placement, fraction } => {
                self.number(2);
                self.number(pane);
                self.number(axis_number(axis));
                self.number(new_pane);
                self.number(side_number(placement));
                self.real(fraction);
            }
            TileOp::Move { pane, target } => {
                self.number(3);
                self.number(pane);
                self.target(target);
            }
            TileOp::Reorder { group, pane, index } => {
                self.number(4);
                self.tile(group);
                self.number(pane);
                self.number(index);
            }
        }
    }

    fn target(&mut self, target: DockTarget) {
        match target {
            DockTarget::Root => self.number(0),
            DockTarget::Beside { tile, axis, placement, ratio } => {
                self.number(1);
                self.tile(tile);
                self.number(axis_number(axis));
                self.number(side_number(placement));
                self.real(ratio);
            }
            DockTarget::Into { group, index } => {
                self.number(2);
                self.tile(group);
                self.flag(index.is_some());
                self.number(index.unwrap_or(0));
            }
        }
    }

    fn rect(&mut self, rect: Rect) {
        for real in [rect.x0, rect.y0, rect.x1, rect.y1] {
            self.real(real);
        }
    }

    pub fn input(&mut self, input: &LayoutInput) {
        self.rect(input.outer);
        for real in [input.handle, input.bar, input.min_width, input.min_height] {
            self.real(real);
        }
    }

    fn each<T>(&mut self, items: &[T], entry: impl Fn(&mut Self, &T)) {
        self.number(items.len() as u64);
        for item in items {
            entry(self, item);
        }
    }

    fn frame(&mut self, frame: &Frame) {
        self.each(&frame.panes, |to, pane| {
            to.number(pane.pane);
            to.tile(pane.tile);
            to.rect(pane.rect);
        });
        self.each(&frame.tab_bars, |to, bar| {
            to.tile(bar.group);
            to.rect(bar.rect);
            to.number(bar_number(bar.placement));
            to.number(bar.active_pane);
        });
        self.each(&frame.tabs, |to, tab| {
            to.tile(tab.group);
            to.number(tab.pane);
            to.rect(tab.rect);
            to.number(tab.index);
            to.flag(tab.active);
        });
        self.each(&frame.split_children, |to, child| {
            to.tile(child.split);
            to.tile(child.child);
            to.number(child.index);
            to.rect(child.rect);
        });
        self.each(&frame.split_handles, |to, handle| {
            to.tile(handle.split);
            to.number(handle.handle);
            to.number(axis_number(handle.axis));
            to.rect(handle.rect);
        });
        self.each(&frame.focus_order, |to, &pane| to.number(pane));
        self.each(&frame.paint_order, |to, &item| to.item(item));
    }

    fn item(&mut self, item: FrameItemId) {
        let (kind, first, second) = match item {
            FrameItemId::Pane(pane) => (0, pane, 0),
            FrameItemId::TabBar(group) => (1, group.slot, 0),
            FrameItemId::Tab { group, pane } => (2, group.slot, pane),
            FrameItemId::SplitHandle { split, handle } => (3, split.slot, handle),
        };
        self.number(kind);
        self.number(first);
        self.number(second);
    }

    pub fn spec_answer(&mut self, answer: &TreeAnswer) {
        self.refusal(answer.refusal);
        self.tree(&answer.tree);
    }

    pub fn repair_answer(&mut self, before: &TileTree, sound: bool, answer: &RepairAnswer) {
        self.flag(sound);
        self.refusal(answer.refusal);
        self.tree_after(before, &answer.tree);
        self.each(&answer.actions, |to, &action| to.action(action));
    }

    pub fn apply_answer(&mut self, before: &TileTree, answer: &TreeAnswer) {
        self.refusal(answer.refusal);
        self.tree_after(before, &answer.tree);
    }

    pub fn layout_answer(&mut self, answer: &LayoutAnswer) {
        self.refusal(answer.refusal);
        self.frame(&answer.frame);
    }

    pub fn solve_answer(&mut self, answer: &SolveAnswer) {
        self.refusal(answer.refusal);
        self.each(&answer.lengths, |to, &length| to.real(length));
        self.number(answer.passes);
    }
}

fn axis_number(axis: Axis) -> u64 {
    match axis {
        Axis::Horizontal => 0,
        Axis::Vertical => 1,
    }
}

fn side_number(placement: Placement) -> u64 {
    match placement {
        Placement::Before => 0,
        Placement::After => 1,
    }
}

fn bar_number(placement: TabBarPlacement) -> u64 {
    match placement {
        TabBarPlacement::Hidden => 0,
        TabBarPlacement::Top => 1,
        TabBarPlacement::Bottom => 2,
        TabBarPlacement::Left => 3,
        TabBarPlacement::Right => 4,
    }
}
