//! A desk laid out, as a picture: `cargo run --release --example desk > desk.svg`.
//!
//! Recalls to send stand beside the notices that are due; a group below them
//! holds three lists of readers, of which one is shown.

use std::fmt::Write;

use tiling::{
    Axis, LayoutFrame, LayoutInput, PaneId, Placement, Rect, Size, TileError, TileOp, TileSpec,
    TileTree,
};

const NAMES: [&str; 6] = ["recalls", "overdue", "readers", "fines", "returns", "today"];

/// Two panes side by side over a group of three, with the day's list split off.
fn desk() -> Result<TileTree, TileError> {
    let mut tree = TileTree::from_spec(TileSpec::split(
        Axis::Vertical,
        [
            TileSpec::split(
                Axis::Horizontal,
                [TileSpec::pane(PaneId(0)), TileSpec::pane(PaneId(1))],
                [3.0, 2.0],
            ),
            TileSpec::tabs([PaneId(2), PaneId(3), PaneId(4)]),
        ],
        [2.0, 1.0],
    ))?;
    tree.apply(TileOp::SplitPane {
        pane: PaneId(1),
        axis: Axis::Vertical,
        new_pane: PaneId(5),
        placement: Placement::After,
        share: 0.4,
    })?;
    tree.apply(TileOp::ActivatePane { pane: PaneId(3) })?;
    Ok(tree)
}

fn name(pane: PaneId) -> &'static str {
    usize::try_from(pane.0).ok().and_then(|at| NAMES.get(at)).copied().unwrap_or("?")
}

fn draw(svg: &mut String, rect: Rect, fill: &str, text: &str) {
    let (width, height) = (rect.x1 - rect.x0, rect.y1 - rect.y0);
    let (x, y) = (rect.x0 + 8.0, rect.y0 + 17.0);
    let (left, top) = (rect.x0, rect.y0);
    _ = writeln!(
        svg,
        "<rect x=\"{left}\" y=\"{top}\" width=\"{width}\" height=\"{height}\" fill=\"{fill}\"/>"
    );
    if !text.is_empty() {
        _ = writeln!(svg, "<text x=\"{x}\" y=\"{y}\">{text}</text>");
    }
}

fn picture(frame: &LayoutFrame, bounds: Rect) -> String {
    let mut svg = format!(
        "<svg xmlns=\"http://www.w3.org/2000/svg\" viewBox=\"{} {} {} {}\" \
         font-family=\"sans-serif\" font-size=\"13\">\n",
        bounds.x0,
        bounds.y0,
        bounds.x1 - bounds.x0,
        bounds.y1 - bounds.y0
    );
    for pane in frame.panes() {
        draw(&mut svg, pane.rect, "#e8eef4", name(pane.pane));
    }
    for bar in frame.tab_bars() {
        draw(&mut svg, bar.rect, "#c9d3dd", "");
    }
    for tab in frame.tabs() {
        let fill = if tab.active { "#e8eef4" } else { "#b4c0cc" };
        draw(&mut svg, tab.rect, fill, name(tab.pane));
    }
    for handle in frame.split_handles() {
        draw(&mut svg, handle.rect, "#5b6b7a", "");
    }
    svg + "</svg>"
}

fn main() -> Result<(), TileError> {
    let bounds = Rect::new(0.0, 0.0, 640.0, 360.0);
    let frame = desk()?.layout(LayoutInput {
        bounds,
        tab_bar_thickness: 24.0,
        split_handle_thickness: 4.0,
        min_pane_size: Size::new(80.0, 60.0),
    })?;
    println!("{}", picture(&frame, bounds));
    Ok(())
}
