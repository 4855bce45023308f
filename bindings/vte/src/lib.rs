// SPDX-License-Identifier: MIT
//! The crate `vte` over the proved parser of `escape-stream`, for `[patch.crates-io]`: a program
//! that uses `vte` runs over that parser with no edit of its own.
#![cfg_attr(not(feature = "std"), no_std)]

#[cfg(not(by_byte))]
pub use escape_stream::vte::Parser;
#[cfg(by_byte)]
pub use escape_stream::vte::by_byte::Parser;
pub use escape_stream::vte::{Params, ParamsIter, Perform};

#[cfg(feature = "ansi")]
include!(concat!(env!("OUT_DIR"), "/ansi.rs"));
