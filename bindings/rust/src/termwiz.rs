// SPDX-License-Identifier: MIT
//! The names of the crate `termwiz`, version 0.23, for programs that are written for it.
//!
//! Such a program names this module in place of the crate: `use escape_stream::termwiz;`. Commands,
//! images and device control strings are the types of the modules [`osc`](crate::osc),
//! [`apc`](crate::apc), [`dcs`](crate::dcs) and [`action`](crate::action). Control and escape
//! sequences are [values](escape::csi::CSI) with the names of `termwiz`. `docs/DIFFERENCES.md` of
//! the repository lists the differences from `termwiz`.
//!
//! ```
//! use escape_stream::termwiz;
//!
//! use termwiz::cell::Intensity;
//! use termwiz::escape::csi::{CSI, Cursor, Sgr};
//! use termwiz::escape::{Action, OperatingSystemCommand, parser::Parser};
//!
//! let mut parser = Parser::new();
//! let (mut title, mut lines, mut is_bold) = (String::new(), 0, false);
//! parser.parse(b"\x1b]2;some\x1b\\\x1b[1;4m\x1b[3B", |action| match action {
//!     Action::OperatingSystemCommand(command) => {
//!         if let OperatingSystemCommand::SetWindowTitle(text) = *command {
//!             title = text;
//!         }
//!     }
//!     Action::CSI(CSI::Sgr(Sgr::Intensity(intensity))) => is_bold = intensity == Intensity::Bold,
//!     Action::CSI(CSI::Cursor(Cursor::Down(count))) => lines += count,
//!     _ => {}
//! });
//! assert_eq!((&title[..], lines, is_bold), ("some", 3, true));
//! ```
pub mod cell;
mod choices;
pub mod color;
pub mod escape;
mod flags;
pub mod input;

/// Links.
pub mod hyperlink {
    pub use crate::osc::Hyperlink;
}
