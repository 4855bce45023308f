// SPDX-License-Identifier: MIT
//! A terminal's screen from the bytes that a program writes to it, with the names of the crate
//! `vt100` where that has them.
//!
//! A [`Parser`] takes a stream in chunks, and has its [`Screen`]: rows of [`Cell`]s, the cursor,
//! the title, links, what the stream asked a terminal for, and the rows that were scrolled off.
//! After any stream the cells, the names and the cursor of the library are proved to be those of a
//! definition in the terms of ECMA-48, of DEC's manual of the VT510 and of xterm.
//!
//! ```
//! use escape_stream::screen::{Color, Parser};
//!
//! let mut parser = Parser::new(24, 80, 0)?;
//! parser.process(b"\x1b[2J\x1b[H50%\r\x1b[31mdo")?;
//! parser.process(b"ne\x1b[m\r\n")?;
//! let screen = parser.screen();
//! assert_eq!(screen.contents(), "done");
//! assert_eq!(screen.cursor_position(), (1, 0));
//! assert_eq!(screen.cell(0, 3).unwrap().contents(), "e");
//! assert_eq!(screen.cell(0, 3).unwrap().fgcolor(), Color::Idx(1));
//! # Ok::<(), escape_stream::Error>(())
//! ```
//!
//! Differences from `vt100`: a call that takes memory says when it is refused, so
//! [`Parser::new`] and [`Parser::process`] return a [`Result`]; the rows that were scrolled off are
//! [`Parser::scrolled`], and no view of the screen moves over them; and which functions are
//! followed: `docs/DIFFERENCES.md` of the repository has the last.
mod cell;
mod request;
mod shown;

use crate::{Error, ffi};
use alloc::vec::Vec;

pub use cell::{Cell, Color, Underline};
pub use request::Request;
pub use shown::{Link, Screen};

/// Takes a stream in chunks, and has the screen that a terminal shows then.
///
/// After each chunk it copies the rows that are changed, which it finds by a comparison of all
/// cells: so give it chunks, and not single bytes.
#[derive(Debug)]
pub struct Parser {
    raw: ffi::Screen,
    screen: Screen,
    requests: Vec<Request>,
}

impl Parser {
    /// A blank screen of so many rows and columns, where 0 is as 1. It keeps the last `scrollback`
    /// rows that are scrolled off the top of the main screen.
    ///
    /// # Errors
    ///
    /// [`Error::Memory`] if a request for memory was refused.
    pub fn new(rows: u16, cols: u16, scrollback: usize) -> Result<Parser, Error> {
        let mut parser = Parser {
            raw: ffi::Screen::ended(),
            screen: Screen::default(),
            requests: Vec::new(),
        };
        parser.raw.begin(cols, rows, scrollback)?;
        parser.refresh()?;
        Ok(parser)
    }

    /// Takes the next chunk of the stream.
    ///
    /// # Errors
    ///
    /// [`Error::Memory`] if a request for memory was refused, and from then on [`Error::Failed`]:
    /// the screen stays as it was.
    pub fn process(&mut self, bytes: &[u8]) -> Result<(), Error> {
        self.raw.feed(bytes)?;
        self.refresh()
    }

    /// Gives the screen so many rows and columns, where 0 is as 1, as xterm does without saved
    /// lines: a row is cut or gets blank cells, and rows go and come at the bottom, but as many
    /// leave at the top as the row of the cursor needs to stay. Those of the main screen are
    /// scrolled off.
    ///
    /// # Errors
    ///
    /// As those of [`process`](Self::process).
    pub fn set_size(&mut self, rows: u16, cols: u16) -> Result<(), Error> {
        self.raw.resize(cols, rows)?;
        self.refresh()
    }

    /// The screen as it is now.
    pub fn screen(&self) -> &Screen {
        &self.screen
    }

    /// The requests of the last chunk to the terminal, in order.
    pub fn requests(&self) -> &[Request] {
        &self.requests
    }

    /// How many rows were scrolled off the top of the main screen in all.
    pub fn scrolled_count(&self) -> u64 {
        self.screen.state.scrolled
    }

    /// The cells of the rows that were scrolled off and are kept, from the oldest on: of each as
    /// many as the screen had columns then.
    ///
    /// # Errors
    ///
    /// [`Error::Failed`] if an earlier call failed.
    pub fn scrolled(&mut self) -> Result<Vec<Vec<Cell>>, Error> {
        let columns = usize::from(self.screen.state.columns);
        (0..self.screen.state.kept)
            .map(|row| cell::read(columns, |room| self.raw.scrolled(row, room)))
            .collect()
    }

    // Reads what is changed.
    fn refresh(&mut self) -> Result<(), Error> {
        let state = self.raw.state()?;
        self.screen.update(state, &mut self.raw)?;
        self.requests = request::read(state.requests, &mut self.raw)?;
        Ok(())
    }
}

impl Drop for Parser {
    fn drop(&mut self) {
        self.raw.end();
    }
}
