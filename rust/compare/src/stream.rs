//! A frame's seven lists out of the library's stream.

use oracle::value::{
    Frame, FrameItemId, PaneFrame, Rect, SplitChildFrame, SplitHandleFrame, TabBarFrame, TabFrame,
    TileId,
};

use crate::columns::{AXES, BARS};

pub fn frame_of(items: &[[u64; 5]], rects: &[[f64; 4]]) -> Frame {
    let mut frame = Frame::default();
    for (row, sides) in items.iter().zip(rects) {
        push(&mut frame, *row, *sides);
    }
    frame
}

fn push(frame: &mut Frame, row: [u64; 5], [x0, y0, x1, y1]: [f64; 4]) {
    let [kind, slot, second, index, mode] = row;
    let tile = TileId { slot };
    let rect = Rect { x0, y0, x1, y1 };
    match kind {
        0 => frame.focus_order.push(second),
        1 => {
            frame.panes.push(PaneFrame { pane: second, tile, rect });
            frame.paint_order.push(FrameItemId::Pane(second));
        }
        2 => {
            let placement = BARS[mode as usize];
            frame.tab_bars.push(TabBarFrame { group: tile, rect, placement, active_pane: second });
            frame.paint_order.push(FrameItemId::TabBar(tile));
        }
        3 => {
            assert!(mode < 2, "a tab is active or not: {mode}");
            let active = mode == 1;
            frame.tabs.push(TabFrame { group: tile, pane: second, rect, index, active });
            frame.paint_order.push(FrameItemId::Tab { group: tile, pane: second });
        }
        4 => {
            let child = TileId { slot: second };
            frame.split_children.push(SplitChildFrame { split: tile, child, index, rect });
        }
        5 => {
            let axis = AXES[mode as usize];
            frame.split_handles.push(SplitHandleFrame { split: tile, handle: index, axis, rect });
            frame.paint_order.push(FrameItemId::SplitHandle { split: tile, handle: index });
        }
        other => panic!("an entry of kind {other}"),
    }
}
