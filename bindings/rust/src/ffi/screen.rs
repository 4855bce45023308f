// SPDX-License-Identifier: MIT
//! The calls of a terminal's screen.
use super::{NOT_BEGUN, done};
use crate::Error;

extern "C" {
    fn escape_stream_screen_begin(
        screen: *mut Screen,
        columns: u16,
        rows: u16,
        scrollback: usize,
    ) -> u32;
    fn escape_stream_screen_feed(screen: *mut Screen, bytes: *const u8, length: usize) -> u32;
    fn escape_stream_screen_resize(screen: *mut Screen, columns: u16, rows: u16) -> u32;
    fn escape_stream_screen_state_of(screen: *mut Screen, state: *mut ScreenState) -> u32;
    fn escape_stream_screen_cells(
        screen: *mut Screen,
        row: usize,
        cells: *mut RawCell,
        room: usize,
        needed: *mut usize,
    ) -> u32;
    fn escape_stream_screen_scrolled(
        screen: *mut Screen,
        row: usize,
        cells: *mut RawCell,
        room: usize,
        needed: *mut usize,
    ) -> u32;
    fn escape_stream_screen_title(
        screen: *mut Screen,
        out: *mut u8,
        capacity: usize,
        needed: *mut usize,
    ) -> u32;
    fn escape_stream_screen_icon_name(
        screen: *mut Screen,
        out: *mut u8,
        capacity: usize,
        needed: *mut usize,
    ) -> u32;
    fn escape_stream_screen_link(
        screen: *mut Screen,
        number: usize,
        out: *mut u8,
        capacity: usize,
        needed: *mut usize,
    ) -> u32;
    fn escape_stream_screen_link_id(
        screen: *mut Screen,
        number: usize,
        out: *mut u8,
        capacity: usize,
        needed: *mut usize,
    ) -> u32;
    fn escape_stream_screen_requests(
        screen: *mut Screen,
        requests: *mut RawRequest,
        room: usize,
        needed: *mut usize,
    ) -> u32;
    fn escape_stream_screen_changed(screen: *mut Screen, out: *mut u8, capacity: usize) -> u32;
    fn escape_stream_screen_end(screen: *mut Screen);
}

/// A screen. Its fields are the library's. It alone uses the memory that they point to, since it is
/// never copied.
#[repr(C)]
#[derive(Debug)]
pub struct Screen {
    is_begun: bool,
    state: *mut u8,
}

// SAFETY: the library keeps nothing of a thread, and its memory is that of `malloc`, which any
// thread may give back. The header asks for one caller at a time.
unsafe impl Send for Screen {}

// SAFETY: no call takes a shared reference.
unsafe impl Sync for Screen {}

/// The state of a screen, but for its cells.
#[repr(C)]
#[derive(Clone, Copy, Debug, Default)]
pub struct ScreenState {
    pub scrolled: u64,
    pub kept: usize,
    pub requests: usize,
    pub links: usize,
    pub columns: u16,
    pub rows: u16,
    pub cursor_row: u16,
    pub cursor_column: u16,
    pub pending: bool,
    pub shown: bool,
    pub alternate: bool,
    pub reversed: bool,
    pub synchronized: bool,
    pub has_title: bool,
}

/// A cell.
#[repr(C)]
#[derive(Clone, Copy, Debug, Default, PartialEq, Eq)]
pub struct RawCell {
    pub character: u32,
    pub first_mark: u32,
    pub second_mark: u32,
    pub foreground: u32,
    pub background: u32,
    pub underline_color: u32,
    pub link: u32,
    pub width: u8,
    pub underline: u8,
    pub bold: bool,
    pub faint: bool,
    pub italic: bool,
    pub blink: bool,
    pub inverse: bool,
    pub concealed: bool,
    pub strikethrough: bool,
    pub overline: bool,
    pub more_marks: bool,
    pub joined: bool,
}

/// A request of the stream to the terminal.
#[repr(C)]
#[derive(Clone, Copy, Debug, Default)]
pub struct RawRequest {
    pub kind: u32,
    pub mode: u32,
}

// The error of a status. After `NOT_BEGUN` an earlier call was refused memory.
fn said<T>(status: u32, value: T) -> Result<T, Error> {
    match status {
        NOT_BEGUN => Err(Error::Failed),
        status => done(status, value),
    }
}

impl Screen {
    /// One that is not begun.
    pub fn ended() -> Screen {
        Screen {
            is_begun: false,
            state: core::ptr::null_mut(),
        }
    }

    /// Begins a stream.
    pub fn begin(&mut self, columns: u16, rows: u16, scrollback: usize) -> Result<(), Error> {
        // SAFETY: the struct is one of zeros, or what a call left. The library gives back what it
        // has, and by clauses `begun` and `refused` it has begun or ended.
        done(
            unsafe { escape_stream_screen_begin(self, columns, rows, scrollback) },
            (),
        )
    }

    /// Takes a chunk.
    pub fn feed(&mut self, bytes: &[u8]) -> Result<(), Error> {
        // SAFETY: as in `begin`. By clause `refused` it has ended after any status but `DONE`.
        said(
            unsafe { escape_stream_screen_feed(self, bytes.as_ptr(), bytes.len()) },
            (),
        )
    }

    /// Gives it so many columns and rows.
    pub fn resize(&mut self, columns: u16, rows: u16) -> Result<(), Error> {
        // SAFETY: as in `feed`.
        said(
            unsafe { escape_stream_screen_resize(self, columns, rows) },
            (),
        )
    }

    /// Its state, but for its cells.
    pub fn state(&mut self) -> Result<ScreenState, Error> {
        let mut state = ScreenState::default();
        // SAFETY: as in `feed`. Clause `told` says which values `state` has after `DONE`.
        let status = unsafe { escape_stream_screen_state_of(self, &mut state) };
        said(status, state)
    }

    /// Writes the cells of a row.
    pub fn cells(&mut self, row: usize, cells: &mut [RawCell]) -> Result<usize, Error> {
        let mut needed = 0;
        // SAFETY: as in `feed`. Clause `shown` says what `cells` holds after `DONE`, initialized
        // all of it, and `refused` that it is as it was after any other status.
        let status = unsafe {
            escape_stream_screen_cells(self, row, cells.as_mut_ptr(), cells.len(), &mut needed)
        };
        said(status, needed)
    }

    /// Writes the cells of a row that was scrolled off.
    pub fn scrolled(&mut self, row: usize, cells: &mut [RawCell]) -> Result<usize, Error> {
        let mut needed = 0;
        // SAFETY: as in `cells`: what is written are cells of the library.
        let status = unsafe {
            escape_stream_screen_scrolled(self, row, cells.as_mut_ptr(), cells.len(), &mut needed)
        };
        said(status, needed)
    }

    /// Writes the title.
    pub fn title(&mut self, out: &mut [u8]) -> Result<usize, Error> {
        let mut needed = 0;
        // SAFETY: as in `cells`.
        let status =
            unsafe { escape_stream_screen_title(self, out.as_mut_ptr(), out.len(), &mut needed) };
        said(status, needed)
    }

    /// Writes the name of the icon.
    pub fn icon_name(&mut self, out: &mut [u8]) -> Result<usize, Error> {
        let mut needed = 0;
        // SAFETY: as in `cells`.
        let status = unsafe {
            escape_stream_screen_icon_name(self, out.as_mut_ptr(), out.len(), &mut needed)
        };
        said(status, needed)
    }

    /// Writes the address of a link.
    pub fn link(&mut self, number: usize, out: &mut [u8]) -> Result<usize, Error> {
        let mut needed = 0;
        // SAFETY: as in `cells`.
        let status = unsafe {
            escape_stream_screen_link(self, number, out.as_mut_ptr(), out.len(), &mut needed)
        };
        said(status, needed)
    }

    /// Writes the id of a link.
    pub fn link_id(&mut self, number: usize, out: &mut [u8]) -> Result<usize, Error> {
        let mut needed = 0;
        // SAFETY: as in `cells`.
        let status = unsafe {
            escape_stream_screen_link_id(self, number, out.as_mut_ptr(), out.len(), &mut needed)
        };
        said(status, needed)
    }

    /// Writes what the last chunk asked for.
    pub fn requests(&mut self, requests: &mut [RawRequest]) -> Result<usize, Error> {
        let mut needed = 0;
        // SAFETY: as in `cells`, by clause `made`.
        let status = unsafe {
            escape_stream_screen_requests(self, requests.as_mut_ptr(), requests.len(), &mut needed)
        };
        said(status, needed)
    }

    /// Writes for each row whether it was changed since the last call.
    pub fn changed(&mut self, rows: &mut [u8]) -> Result<(), Error> {
        // SAFETY: as in `feed`; bytes are written alone, and within the slice.
        let status = unsafe { escape_stream_screen_changed(self, rows.as_mut_ptr(), rows.len()) };
        said(status, ())
    }

    /// Gives back what it has.
    pub fn end(&mut self) {
        // SAFETY: as in `begin`.
        unsafe { escape_stream_screen_end(self) }
    }
}
