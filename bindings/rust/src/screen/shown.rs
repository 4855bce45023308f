// SPDX-License-Identifier: MIT
//! The screen of a terminal.
use super::cell::{self, Cell};
use crate::Error;
use crate::ffi::{self, ScreenState};
use alloc::string::String;
use alloc::vec;
use alloc::vec::Vec;

/// A link to which cells lead.
#[derive(Clone, Debug, PartialEq, Eq, Hash)]
pub struct Link {
    /// Its address.
    pub address: String,
    /// Its id, where it has one: cells of one id and one address are one link.
    pub id: Option<String>,
}

/// The screen of a terminal: its cells, its cursor, its names and its links.
#[derive(Clone, Debug, Default)]
pub struct Screen {
    pub(super) state: ScreenState,
    rows: Vec<Vec<Cell>>,
    title: String,
    icon_name: String,
    links: Vec<Link>,
}

impl Screen {
    /// How many rows and columns it has.
    pub fn size(&self) -> (u16, u16) {
        (self.state.rows, self.state.columns)
    }

    /// The row and the column of the cursor, from 0 on.
    pub fn cursor_position(&self) -> (u16, u16) {
        (self.state.cursor_row, self.state.cursor_column)
    }

    /// Whether the last column was just written, so that the next character goes to the next row.
    pub fn wrap_pending(&self) -> bool {
        self.state.pending
    }

    /// Whether the cursor is hidden.
    pub fn hide_cursor(&self) -> bool {
        !self.state.shown
    }

    /// Whether the alternate screen is seen.
    pub fn alternate_screen(&self) -> bool {
        self.state.alternate
    }

    /// Whether each cell is to be drawn inverse.
    pub fn reverse_video(&self) -> bool {
        self.state.reversed
    }

    /// Whether a program is in the middle of an update (mode 2026).
    pub fn synchronized(&self) -> bool {
        self.state.synchronized
    }

    /// The title of the window; nothing where it has none.
    pub fn title(&self) -> &str {
        &self.title
    }

    /// The name of its icon; nothing where it has none.
    pub fn icon_name(&self) -> &str {
        &self.icon_name
    }

    /// A cell, by its row and its column, from 0 on.
    pub fn cell(&self, row: u16, col: u16) -> Option<&Cell> {
        self.rows.get(usize::from(row))?.get(usize::from(col))
    }

    /// The cells of each row.
    pub fn cells(&self) -> impl Iterator<Item = &[Cell]> {
        self.rows.iter().map(Vec::as_slice)
    }

    /// Whether a row goes on in the next one, since a character wrapped.
    pub fn row_wrapped(&self, row: u16) -> bool {
        let cells = self.rows.get(usize::from(row));
        cells
            .and_then(|cells| cells.last())
            .is_some_and(Cell::is_joined)
    }

    /// The text of so many columns of each row, from `start` on, without the blank cells at its
    /// end.
    pub fn rows(&self, start: u16, width: u16) -> impl Iterator<Item = String> + '_ {
        let (start, width) = (usize::from(start), usize::from(width));
        self.rows.iter().map(move |cells| {
            let mut text = String::new();
            let columns = cells.iter().skip(start).take(width);
            push_text(&mut text, columns);
            text
        })
    }

    /// The text of the screen: a line for each row, or for rows that go on in one another, without
    /// the empty lines at the end.
    pub fn contents(&self) -> String {
        let mut text = String::new();
        for cells in &self.rows {
            push_text(&mut text, cells.iter());
            if !cells.last().is_some_and(Cell::is_joined) {
                text.push('\n');
            }
        }
        text.truncate(text.trim_end_matches('\n').len());
        text
    }

    /// The links to which cells led, in the order in which they came.
    pub fn links(&self) -> &[Link] {
        &self.links
    }

    // Reads what is changed.
    pub(super) fn update(
        &mut self,
        state: ScreenState,
        raw: &mut ffi::Screen,
    ) -> Result<(), Error> {
        let (count, columns) = (usize::from(state.rows), usize::from(state.columns));
        let mut changed = vec![0; count];
        raw.changed(&mut changed)?;
        self.rows.resize(count, Vec::new());
        for (row, _) in changed.iter().enumerate().filter(|(_, is)| **is != 0) {
            self.rows[row] = cell::read(columns, |room| raw.cells(row, room))?;
        }
        self.title = text_of(|out| raw.title(out))?;
        self.icon_name = text_of(|out| raw.icon_name(out))?;
        for number in self.links.len() + 1..=state.links {
            let address = text_of(|out| raw.link(number, out))?;
            let id = text_of(|out| raw.link_id(number, out))?;
            let id = Some(id).filter(|id| !id.is_empty());
            self.links.push(Link { address, id });
        }
        self.state = state;
        Ok(())
    }
}

// Appends the text of cells: spaces for the blank ones before the last one that is none.
fn push_text<'a>(text: &mut String, cells: impl Iterator<Item = &'a Cell>) {
    let mut blanks = 0;
    for cell in cells {
        if cell.has_contents() {
            text.extend(core::iter::repeat(' ').take(blanks));
            text.push_str(cell.contents());
            blanks = 0;
        } else if !cell.is_wide_continuation() {
            blanks += 1;
        }
    }
}

// The text that a call writes, which says how long it is.
fn text_of(mut write: impl FnMut(&mut [u8]) -> Result<usize, Error>) -> Result<String, Error> {
    let mut room = vec![0; 256];
    let needed = write(&mut room)?;
    if needed > room.len() {
        room.resize(needed, 0);
        write(&mut room)?;
    }
    room.truncate(needed);
    Ok(String::from_utf8_lossy(&room).into_owned())
}
