//! A group's rectangle divided: bar and pane, and the bar's tabs.

use super::numbers::smaller;
use crate::value::{Rect, TabBarPlacement};

/// The bar's rectangle and the pane's; a hidden bar has none.
pub fn split_tab_bar(rect: Rect, placement: TabBarPlacement, bar: f64) -> Option<(Rect, Rect)> {
    let high = smaller(bar, rect.y1 - rect.y0);
    let wide = smaller(bar, rect.x1 - rect.x0);
    match placement {
        TabBarPlacement::Hidden => None,
        TabBarPlacement::Top => {
            let edge = rect.y0 + high;
            Some((Rect { y1: edge, ..rect }, Rect { y0: edge, ..rect }))
        }
        TabBarPlacement::Bottom => {
            let edge = rect.y1 - high;
            Some((Rect { y0: edge, ..rect }, Rect { y1: edge, ..rect }))
        }
        TabBarPlacement::Left => {
            let edge = rect.x0 + wide;
            Some((Rect { x1: edge, ..rect }, Rect { x0: edge, ..rect }))
        }
        TabBarPlacement::Right => {
            let edge = rect.x1 - wide;
            Some((Rect { x0: edge, ..rect }, Rect { x1: edge, ..rect }))
        }
    }
}

/// Equal tabs along the bar; the last one ends where the bar ends.
pub fn tab_rect(bar: Rect, placement: TabBarPlacement, index: usize, count: usize) -> Rect {
    let is_last = index + 1 == count;
    match placement {
        TabBarPlacement::Left | TabBarPlacement::Right => {
            let (y0, y1) = tab_span(bar.y0, bar.y1, index, count, is_last);
            Rect { y0, y1, ..bar }
        }
        _ => {
            let (x0, x1) = tab_span(bar.x0, bar.x1, index, count, is_last);
            Rect { x0, x1, ..bar }
        }
    }
}

fn tab_span(from: f64, to: f64, index: usize, count: usize, is_last: bool) -> (f64, f64) {
    let size = (to - from) / count as f64;
    let start = from + size * index as f64;
    (start, if is_last { to } else { start + size })
}
