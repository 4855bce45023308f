// SPDX-License-Identifier: MIT
//! Device control strings as values: sixel images and termcap queries.
//!
//! The names are those of the crate `termwiz`.
mod read_sixel;
mod sixel;
mod written;

pub(crate) use read_sixel::read_sixel;
pub use sixel::{RgbColor, Sixel, SixelData, SixelValue};

use crate::borrowed::List;
use crate::fields::{Room, read};
use crate::{Error, ffi};
use alloc::string::String;
use alloc::vec::Vec;

/// The names of capabilities that a termcap query asks for (XTGETTCAP), at least one, by its data:
/// the bytes between `ESC P + q` and their end. Any bytes are such data.
///
/// ```
/// assert_eq!(escape_stream::dcs::xt_get_tcap(b"544e;436f")?, ["TN", "Co"]);
/// # Ok::<(), escape_stream::Error>(())
/// ```
///
/// # Errors
///
/// Those of [`OperatingSystemCommand::parse`](crate::osc::OperatingSystemCommand::parse).
pub fn xt_get_tcap(data: &[u8]) -> Result<Vec<String>, Error> {
    let mut room = Room::default();
    let names = xt_get_tcap_in(data, &mut room)?;
    Ok(names.iter().map(String::from).collect())
}

pub(crate) fn xt_get_tcap_in<'a>(
    data: &[u8],
    room: &'a mut Room,
) -> Result<List<'a, &'a str>, Error> {
    read(data, room, ffi::read_tcap, |_, fields| List::of(fields))
}
