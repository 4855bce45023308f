// SPDX-License-Identifier: MIT
//! A parser that gives actions.
use super::Action;
use super::csi::CsiParam;
use crate::{Error, action, borrowed};
use alloc::vec::Vec;

/// A parser of a stream that comes in chunks, and is given as actions: an
/// [`action::Parser`] whose actions have the values of `termwiz`.
///
/// ```
/// use escape_stream::termwiz::escape::csi::{CSI, Cursor};
/// use escape_stream::termwiz::escape::{Action, OneBased, parser::Parser};
///
/// let (line, col) = (OneBased::new(2), OneBased::new(5));
/// let actions = Parser::new().parse_as_vec(b"\x1b[2;5Ha");
/// let place = CSI::Cursor(Cursor::Position { line, col });
/// assert_eq!(actions, [Action::CSI(place), Action::Print('a')]);
/// ```
#[derive(Clone, Debug, Default)]
pub struct Parser {
    actions: action::Parser,
    // The entries of a control sequence.
    room: Vec<CsiParam>,
}

impl Parser {
    /// A parser at the beginning of a stream, with the limits of
    /// [`action::Parser::new`].
    #[must_use]
    pub fn new() -> Parser {
        Parser::default()
    }

    /// One that passes over longer texts of commands, and longer data of device control strings
    /// that are given whole.
    #[must_use]
    pub fn with_limits(text: usize, data: usize) -> Parser {
        Parser {
            actions: action::Parser::with_limits(text, data),
            room: Vec::new(),
        }
    }

    /// Takes the next bytes of the stream, and calls `callback` with each action. Each character
    /// is a `Print`. A string that is unfinished gives its action when it ends.
    ///
    /// After a [failure](Parser::failure) it calls nothing.
    pub fn parse<F: FnMut(Action)>(&mut self, bytes: &[u8], mut callback: F) {
        let room = &mut self.room;
        self.actions.parse_borrowed(bytes, |it| match it {
            borrowed::Action::PrintString(text) => {
                for c in text.chars() {
                    callback(Action::Print(c));
                }
            }
            borrowed::Action::CSI(it) => {
                let entries = (it.params, it.parameters_truncated, it.control);
                Action::give_sequence(entries, room, &mut callback);
            }
            other => Action::give(other.into_owned(), room, &mut callback),
        });
    }

    /// The actions of the next bytes of the stream.
    ///
    /// After a [failure](Parser::failure) there are none.
    pub fn parse_as_vec(&mut self, bytes: &[u8]) -> Vec<Action> {
        let mut actions = Vec::new();
        self.parse(bytes, |action| actions.push(action));
        actions
    }

    /// Takes the next bytes of the stream up to the end of the first action, and returns it with
    /// how many bytes these are. Further actions of its last byte are dropped, as those of a
    /// control sequence with several values.
    ///
    /// `None` if the bytes give no action: then all were taken. After a
    /// [failure](Parser::failure) it takes none.
    pub fn parse_first(&mut self, bytes: &[u8]) -> Option<(Action, usize)> {
        let (found, count) = self.actions.parse_first(bytes)?;
        let mut first = None;
        Action::give(found, &mut self.room, &mut |action| {
            first.get_or_insert(action);
        });
        first.map(|action| (action, count))
    }

    /// Takes the next bytes of the stream up to the first place with an action and no sequence and
    /// no string unfinished, and returns all actions of these bytes with the number of the bytes.
    /// So a string comes with its terminator.
    ///
    /// `None` if there is no such place: then all bytes were taken, and their actions are dropped.
    /// After a [failure](Parser::failure) it takes none.
    pub fn parse_first_as_vec(&mut self, bytes: &[u8]) -> Option<(Vec<Action>, usize)> {
        let (found, count) = self.actions.parse_first_as_vec(bytes)?;
        let mut actions = Vec::new();
        for it in found {
            Action::give(it, &mut self.room, &mut |action| actions.push(action));
        }
        Some((actions, count))
    }

    /// Why it gives nothing any more, if it failed.
    #[must_use]
    pub fn failure(&self) -> Option<Error> {
        self.actions.failure()
    }
}
