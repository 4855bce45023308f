// SPDX-License-Identifier: MIT
//! Control sequences of the window.
use super::sequence::{Sequence, counted};
use crate::termwiz::escape::OneBased;
use core::fmt;

/// A request to the window, or a report of it. Sizes are in pixels or, if the name says so, in
/// cells.
#[derive(Clone, Copy, Debug, PartialEq, Eq)]
#[cfg_attr(feature = "serde", derive(serde::Serialize, serde::Deserialize))]
pub enum Window {
    /// 1 opens it again.
    DeIconify,
    /// 2 makes it an icon.
    Iconify,
    /// 3 moves it.
    MoveWindow {
        /// The place from the left.
        x: i64,
        /// The place from the top.
        y: i64,
    },
    /// 4 gives it a size. A size that is left out stays as it is.
    ResizeWindowPixels {
        /// The width.
        width: Option<i64>,
        /// The height.
        height: Option<i64>,
    },
    /// 5 raises it.
    RaiseWindow,
    /// 6 lowers it.
    LowerWindow,
    /// 7 draws it again.
    RefreshWindow,
    /// 8 gives its text a size. A size that is left out stays as it is.
    ResizeWindowCells {
        /// The width.
        width: Option<i64>,
        /// The height.
        height: Option<i64>,
    },
    /// 9 and 0 end that it is maximized.
    RestoreMaximizedWindow,
    /// 9 and 1 maximize it.
    MaximizeWindow,
    /// 9 and 2 maximize its height.
    MaximizeWindowVertically,
    /// 9 and 3 maximize its width.
    MaximizeWindowHorizontally,
    /// 10 and 0 end that it fills the screen.
    UndoFullScreenMode,
    /// 10 and 1 have it fill the screen.
    ChangeToFullScreenMode,
    /// 10 and 2 change whether it fills the screen.
    ToggleFullScreen,
    /// 11 asks whether it is open.
    ReportWindowState,
    /// 13 asks for its place.
    ReportWindowPosition,
    /// 13 and 2 ask for the place of its text.
    ReportTextAreaPosition,
    /// 14 asks for the size of its text.
    ReportTextAreaSizePixels,
    /// 14 and 2 ask for its size.
    ReportWindowSizePixels,
    /// 15 asks for the size of the screen.
    ReportScreenSizePixels,
    /// 16 asks for the size of a cell.
    ReportCellSizePixels,
    /// 6 with two numbers reports the size of a cell.
    ReportCellSizePixelsResponse {
        /// The width.
        width: Option<i64>,
        /// The height.
        height: Option<i64>,
    },
    /// 18 asks for the size of its text.
    ReportTextAreaSizeCells,
    /// 19 asks for the size of the screen.
    ReportScreenSizeCells,
    /// 20 asks for the label of its icon.
    ReportIconLabel,
    /// 21 asks for its title.
    ReportWindowTitle,
    /// 22 and 0 keep its title and that of its icon.
    PushIconAndWindowTitle,
    /// 22 and 1 keep the title of its icon.
    PushIconTitle,
    /// 22 and 2 keep its title.
    PushWindowTitle,
    /// 23 and 0 take both titles back.
    PopIconAndWindowTitle,
    /// 23 and 1 take the title of its icon back.
    PopIconTitle,
    /// 23 and 2 take its title back.
    PopWindowTitle,
    /// DECRQCRA asks for a sum over the characters of a rectangle.
    ChecksumRectangularArea {
        /// The number that the report repeats.
        request_id: i64,
        /// The page.
        page_number: i64,
        /// The first line.
        top: OneBased,
        /// The first column.
        left: OneBased,
        /// The last line.
        bottom: OneBased,
        /// The last column.
        right: OneBased,
    },
}

impl Window {
    pub(super) fn of(sequence: &Sequence<'_>) -> Option<Window> {
        match (sequence.prefix, sequence.intermediate, sequence.last) {
            (None, None, 't') => {
                let [number, first, second] = sequence.numbers()?;
                Window::operation(number?, first, second)
            }
            (None, Some(b'*'), 'y') => {
                let [id, page, top, left, bottom, right] = sequence.numbers()?;
                let place = |number| counted(number).map(OneBased::new);
                Some(Window::ChecksumRectangularArea {
                    request_id: id.unwrap_or(0),
                    page_number: page.unwrap_or(0),
                    top: place(top)?,
                    left: place(left)?,
                    bottom: place(bottom)?,
                    right: place(right)?,
                })
            }
            _ => None,
        }
    }

    // The one of the first number, and what follows it.
    fn operation(number: i64, first: Option<i64>, second: Option<i64>) -> Option<Window> {
        Some(match (number, first, second) {
            (3, Some(x), Some(y)) => Window::MoveWindow { x, y },
            (4, height, width) => Window::ResizeWindowPixels { width, height },
            (6, Some(_), Some(_)) => Window::ReportCellSizePixelsResponse {
                width: second,
                height: first,
            },
            (8, height, width) => Window::ResizeWindowCells { width, height },
            // The third number may be the 0 that xterm sends with a title.
            (22 | 23, Some(_), None | Some(0)) => return Window::known(number, first),
            (_, _, None) => return Window::known(number, first),
            _ => return None,
        })
    }

    // The one of these numbers, which has no others.
    fn known(number: i64, choice: Option<i64>) -> Option<Window> {
        let is_it = |row: &&(Window, i64, Option<i64>)| row.1 == number && row.2 == choice;
        ROWS.iter().find(is_it).map(|row| row.0)
    }
}

// Those of one number or two.
const ROWS: [(Window, i64, Option<i64>); 29] = [
    (Window::DeIconify, 1, None),
    (Window::Iconify, 2, None),
    (Window::RaiseWindow, 5, None),
    (Window::LowerWindow, 6, None),
    (Window::RefreshWindow, 7, None),
    (Window::RestoreMaximizedWindow, 9, Some(0)),
    (Window::MaximizeWindow, 9, Some(1)),
    (Window::MaximizeWindowVertically, 9, Some(2)),
    (Window::MaximizeWindowHorizontally, 9, Some(3)),
    (Window::UndoFullScreenMode, 10, Some(0)),
    (Window::ChangeToFullScreenMode, 10, Some(1)),
    (Window::ToggleFullScreen, 10, Some(2)),
    (Window::ReportWindowState, 11, None),
    (Window::ReportWindowPosition, 13, None),
    (Window::ReportTextAreaPosition, 13, Some(2)),
    (Window::ReportTextAreaSizePixels, 14, None),
    (Window::ReportWindowSizePixels, 14, Some(2)),
    (Window::ReportScreenSizePixels, 15, None),
    (Window::ReportCellSizePixels, 16, None),
    (Window::ReportTextAreaSizeCells, 18, None),
    (Window::ReportScreenSizeCells, 19, None),
    (Window::ReportIconLabel, 20, None),
    (Window::ReportWindowTitle, 21, None),
    (Window::PushIconAndWindowTitle, 22, Some(0)),
    (Window::PushIconTitle, 22, Some(1)),
    (Window::PushWindowTitle, 22, Some(2)),
    (Window::PopIconAndWindowTitle, 23, Some(0)),
    (Window::PopIconTitle, 23, Some(1)),
    (Window::PopWindowTitle, 23, Some(2)),
];

// Writes numbers, of which the last that are left out have no `;` before them.
fn write_numbers(
    number: i64,
    first: Option<i64>,
    second: Option<i64>,
    f: &mut fmt::Formatter<'_>,
) -> fmt::Result {
    write!(f, "{number}")?;
    match (first, second) {
        (None, None) => {}
        (Some(first), None) => write!(f, ";{first}")?,
        (None, Some(second)) => write!(f, ";;{second}")?,
        (Some(first), Some(second)) => write!(f, ";{first};{second}")?,
    }
    f.write_str("t")
}

// The text after `ESC [`.
impl fmt::Display for Window {
    fn fmt(&self, f: &mut fmt::Formatter<'_>) -> fmt::Result {
        match *self {
            Window::MoveWindow { x, y } => write_numbers(3, Some(x), Some(y), f),
            Window::ResizeWindowPixels { width, height } => write_numbers(4, height, width, f),
            Window::ReportCellSizePixelsResponse { width, height } => {
                write_numbers(6, height, width, f)
            }
            Window::ResizeWindowCells { width, height } => write_numbers(8, height, width, f),
            Window::ChecksumRectangularArea {
                request_id,
                page_number,
                top,
                left,
                bottom,
                right,
            } => write!(
                f,
                "{request_id};{page_number};{top};{left};{bottom};{right}*y"
            ),
            _ => match ROWS.iter().find(|row| row.0 == *self) {
                Some((_, number, choice)) => write_numbers(*number, *choice, None, f),
                None => Err(fmt::Error),
            },
        }
    }
}
