// SPDX-License-Identifier: MIT
//! Requests of a stream to the terminal.
use crate::Error;
use crate::ffi::{self, RawRequest};
use alloc::vec;
use alloc::vec::Vec;

/// A request of the stream, which a real terminal answers.
#[derive(Clone, Copy, Debug, PartialEq, Eq, Hash)]
#[non_exhaustive]
pub enum Request {
    /// For its primary attributes: DA1, DECID.
    PrimaryAttributes,
    /// For its secondary attributes: DA2.
    SecondaryAttributes,
    /// The same, in its tertiary attributes: DA3.
    TertiaryAttributes,
    /// Its name and version: XTVERSION.
    NameAndVersion,
    /// A report of its status: DSR 5.
    Status,
    /// Where the cursor is: DSR 6.
    CursorPosition,
    /// The state of this mode of ECMA-48: DECRQM.
    ModeState(u32),
    /// The state of this private mode: DECRQM.
    PrivateModeState(u32),
}

impl Request {
    fn of(raw: RawRequest) -> Option<Request> {
        Some(match raw.kind {
            1 => Request::PrimaryAttributes,
            2 => Request::SecondaryAttributes,
            3 => Request::TertiaryAttributes,
            4 => Request::NameAndVersion,
            5 => Request::Status,
            6 => Request::CursorPosition,
            7 => Request::ModeState(raw.mode),
            8 => Request::PrivateModeState(raw.mode),
            _ => return None,
        })
    }
}

/// The requests of the last chunk.
pub(super) fn read(count: usize, raw: &mut ffi::Screen) -> Result<Vec<Request>, Error> {
    if count == 0 {
        return Ok(Vec::new());
    }
    let mut room = vec![RawRequest::default(); count];
    raw.requests(&mut room)?;
    Ok(room.into_iter().filter_map(Request::of).collect())
}
