// SPDX-License-Identifier: MIT
//! How a string ends.
use crate::Event;

/// The end of a string, so that an answer can end in the same way and a command that was cancelled
/// can be dropped.
///
/// ```
/// use escape_stream::{Event, Parser, StringEnd};
///
/// let mut seen = Vec::new();
/// Parser::new().advance_while(b"\x1b]10;?\x07\x1b]11;?\x18", |event, taken| {
///     if let Event::Osc(text) = event {
///         seen.push((text.to_vec(), StringEnd::of(&event, taken)));
///     }
///     true
/// })?;
/// assert_eq!(seen[0], (b"10;?".to_vec(), Some(StringEnd::Bell)));
/// assert_eq!(seen[1], (b"11;?".to_vec(), Some(StringEnd::Cancelled)));
/// # Ok::<(), escape_stream::Error>(())
/// ```
#[derive(Clone, Copy, Debug, PartialEq, Eq, Hash)]
#[cfg_attr(feature = "serde", derive(serde::Serialize, serde::Deserialize))]
pub enum StringEnd {
    /// BEL, which ends operating system commands alone.
    Bell,
    /// CAN or SUB.
    Cancelled,
    /// ESC: that of `ESC \`, the string terminator, or of another escape sequence. The next event
    /// is that sequence.
    Escape,
    /// This C1 control, as a byte or in UTF-8: 9C (hexadecimal) is the string terminator.
    C1(u8),
}

impl StringEnd {
    /// The end of the string of an event, by the bytes that were taken for it, as
    /// [`Parser::advance_while`](crate::Parser::advance_while) gives them: of the text of a
    /// command, of the end of a device control string, and of a string over the limit. `None` of
    /// any other event, and if a header over the limit ended.
    pub fn of(event: &Event<'_>, taken: &[u8]) -> Option<StringEnd> {
        match event {
            Event::Osc(_) | Event::Apc(_) | Event::DcsEnd | Event::Limit => {}
            Event::Text(_) | Event::Character(_) | Event::Control(_) | Event::Data(_) => {
                return None;
            }
            Event::Escape { .. } | Event::Csi { .. } | Event::Dcs { .. } => return None,
        }
        match *taken.last()? {
            0x07 => Some(StringEnd::Bell),
            0x18 | 0x1a => Some(StringEnd::Cancelled),
            0x1b => Some(StringEnd::Escape),
            byte @ 0x80..=0x9f => Some(StringEnd::C1(byte)),
            _ => None,
        }
    }
}
