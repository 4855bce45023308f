// SPDX-License-Identifier: MIT
//! The normal form of streams of terminal escape sequences, and a filter for streams of unknown
//! origin.
//!
//! A stream is bytes as a program writes them to a terminal. Any bytes are a stream. A call takes
//! one whole; these take it in chunks: a [`Sanitizer`], which is for logs, with its writer and
//! reader; a [`Filter`], a writer, and a [`FilterReader`]; a [`NormalWriter`] and a
//! [`NormalReader`]; an [`html::ChunkPage`], which gives HTML; a
//! [`screen::Parser`], which has a terminal's screen; and a [`Parser`]. The module [`vte`]
//! has that parser with the calls of the crate `vte`. [`ControlFunction`] and [`EscapeFunction`]
//! name the functions of sequences, by tables that are made from those of the library.
//! [`osc::OperatingSystemCommand`] is the value of a command, [`apc::KittyImage`] and
//! [`dcs::Sixel`] are values of images, and [`action::Parser`] gives a stream as actions with such
//! values, which can be written again; those of the module [`borrowed`] lie in the parser's memory.
//! The module [`termwiz`] has the owned ones at the paths of the crate
//! `termwiz`.
//!
//! A proved library does the work: the output of each call is as its contract says, for every
//! stream. This crate is not proved. Its module `ffi` is its one place with unsafe code. Without
//! the feature `std`, a default, it is `no_std`, over `alloc`, and has [`ChunkFilter`] and
//! [`Normaliser`] in the place of the readers and writers.
//!
//! Without the feature `oneshot`, a default, there are the parsers alone, and nothing else of the
//! archive is linked.
//!
//! ```
//! use escape_stream::{Policy, filter, is_normal, normal};
//!
//! let stream = b"a\x1b]0;a title\x07\x1b[1;31mred";
//! assert_eq!(normal(b"\x1b]0;hello\x07")?, b"\x1b]0;hello\x1b\\");
//! assert!(!is_normal(b"\x1b]0;hello\x07")?);
//! assert_eq!(filter(Policy::Text, 1024, stream)?, b"ared");
//! assert_eq!(filter(Policy::Color, 1024, stream)?, b"a\x1b[1;31mred");
//! # Ok::<(), escape_stream::Error>(())
//! ```
#![no_std]
#![deny(unsafe_code)]
#![warn(missing_docs)]

extern crate alloc;
#[cfg(feature = "std")]
extern crate std;

#[cfg(feature = "oneshot")]
pub mod action;
#[cfg(feature = "oneshot")]
pub mod apc;
#[cfg(feature = "oneshot")]
pub mod borrowed;
#[cfg(feature = "oneshot")]
mod chunks;
mod control_string;
#[cfg(feature = "oneshot")]
pub mod dcs;
#[allow(unsafe_code)]
mod ffi;
#[cfg(feature = "oneshot")]
mod fields;
#[cfg(feature = "oneshot")]
mod filter;
mod function;
mod function_rows;
#[cfg(feature = "oneshot")]
pub mod html;
#[cfg(feature = "oneshot")]
mod normaliser;
mod numbered;
#[cfg(feature = "oneshot")]
mod oneshot;
#[cfg(feature = "oneshot")]
pub mod osc;
mod parameters;
mod params;
mod parser;
#[cfg(all(feature = "oneshot", feature = "std"))]
mod reader;
#[cfg(feature = "oneshot")]
mod sanitizer;
#[cfg(all(feature = "oneshot", feature = "std"))]
mod sanitizer_io;
#[cfg(feature = "oneshot")]
mod sanitizer_options;
#[cfg(feature = "oneshot")]
pub mod screen;
#[cfg(feature = "serde")]
mod serial;
mod string_end;
mod string_rows;
#[cfg(feature = "oneshot")]
pub mod termwiz;
pub mod vte;
#[cfg(all(feature = "oneshot", feature = "std"))]
mod writer;
#[cfg(feature = "oneshot")]
mod written;

pub use control_string::ControlString;
#[cfg(feature = "oneshot")]
pub use filter::ChunkFilter;
pub use function::Effect;
pub use function_rows::{C0, ControlFunction, EscapeFunction};
#[cfg(feature = "oneshot")]
pub use normaliser::Normaliser;
#[cfg(feature = "oneshot")]
pub use oneshot::{Policy, filter, filter_into, is_normal, normal, normal_into};
pub use parameters::{Parameters, dcs_numbers, osc_number, osc_parts, prompt_value};
pub use parser::{Entry, Event, Parser};
#[cfg(all(feature = "oneshot", feature = "std"))]
pub use reader::{FilterReader, NormalReader};
#[cfg(feature = "oneshot")]
pub use sanitizer::{Account, Sanitizer};
#[cfg(all(feature = "oneshot", feature = "std"))]
pub use sanitizer_io::{SanitizerReader, SanitizerWriter};
#[cfg(feature = "oneshot")]
pub use sanitizer_options::{
    Characters, Encoding, Framing, Group, Marking, Returns, SanitizerOptions, Scheme,
};
pub use string_end::StringEnd;
#[cfg(all(feature = "oneshot", feature = "std"))]
pub use writer::{Filter, FilterWriter, NormalWriter};

pub(crate) use numbered::numbered;

use core::fmt;

/// Why a call was not done.
#[derive(Clone, Copy, Debug, PartialEq, Eq, Hash)]
#[non_exhaustive]
pub enum Error {
    /// A request for memory was refused. Nothing was written.
    Memory,
    /// A [`Parser`] failed, and gives nothing any more: the clause `sound` of the library's call
    /// excludes it. Or a filter, a page or a normaliser in chunks was refused memory before, or has
    /// ended. Or the fields of a command are none that its kind has, which the library's call
    /// excludes too.
    Failed,
    /// The bytes of a command or another action would not read back as it, as those of a title with
    /// a control. Nothing was written.
    NotWritable,
    /// The options of a [`Sanitizer`] let more than 4,096 rows be written again.
    TooManyRows,
    /// The options of a [`Sanitizer`] give these rows more than 16,384 columns.
    TooManyColumns,
}

impl fmt::Display for Error {
    fn fmt(&self, f: &mut fmt::Formatter<'_>) -> fmt::Result {
        match self {
            Error::Memory => f.write_str("out of memory"),
            Error::Failed => f.write_str("an earlier call failed"),
            Error::NotWritable => f.write_str("what is written would not read back"),
            Error::TooManyRows => f.write_str("more than 4096 rows may be written again"),
            Error::TooManyColumns => f.write_str("rows have more than 16384 columns"),
        }
    }
}

#[cfg(feature = "std")]
impl std::error::Error for Error {}
