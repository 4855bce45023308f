// SPDX-License-Identifier: MIT
//! The parser of the crate `vte` up to version 0.13, whose `advance` takes a byte.
use super::Perform;

/// A parser of a stream that comes byte by byte: [`super::Parser`], with the signature of `vte` up
/// to version 0.13.
///
/// ```
/// use escape_stream::vte::{Perform, by_byte::Parser};
///
/// struct Screen(String);
///
/// impl Perform for Screen {
///     fn print(&mut self, c: char) {
///         self.0.push(c);
///     }
/// }
///
/// let mut screen = Screen(String::new());
/// let mut parser = Parser::new();
/// for byte in b"caf\xc3\xa9 \x1b[31mred" {
///     parser.advance(&mut screen, *byte);
/// }
/// assert_eq!(screen.0, "caf\u{e9} red");
/// ```
#[derive(Clone, Debug, Default)]
pub struct Parser {
    chunks: super::Parser,
}

impl Parser {
    /// A parser at the beginning of a stream, with the limit of [`super::Parser::new`].
    pub fn new() -> Parser {
        Parser::default()
    }

    /// Takes the next byte of the stream, and makes the calls for it.
    ///
    /// After a [failure](super::Parser::has_failed) it makes none.
    #[inline]
    pub fn advance<P: Perform>(&mut self, performer: &mut P, byte: u8) {
        self.chunks.advance(performer, &[byte]);
    }
}
