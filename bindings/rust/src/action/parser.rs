// SPDX-License-Identifier: MIT
//! A parser that gives actions.
use super::receiver::{Borrowed, Owned, Receiver};
use super::taker::Taker;
use super::{Action, ControlCode, Esc};
use crate::ffi::kind;
use crate::{Error, Event, StringEnd, borrowed, ffi};
use alloc::collections::VecDeque;
use alloc::vec::Vec;
use core::fmt;
use core::iter::FusedIterator;

/// A parser of a stream that comes in chunks, and is given as actions. Its calls are those of
/// `termwiz`, so none of them returns an [`Error`]: [`failure`](Parser::failure) does.
///
/// ```
/// use escape_stream::action::{Action, Parser};
/// use escape_stream::osc::OperatingSystemCommand;
///
/// let mut parser = Parser::new();
/// let mut titles = Vec::new();
/// for chunk in [&b"a\x1b]2;so"[..], b"me\x07\x1b[1mb"] {
///     parser.parse(chunk, |action| {
///         if let Action::OperatingSystemCommand(command) = action {
///             titles.push(*command);
///         }
///     });
/// }
/// assert_eq!(titles, [OperatingSystemCommand::SetWindowTitle("some".into())]);
/// assert_eq!(parser.failure(), None);
/// ```
#[derive(Clone)]
pub struct Parser {
    events: crate::Parser,
    taker: Taker,
    failure: Option<Error>,
}

impl Default for Parser {
    fn default() -> Parser {
        Parser::new()
    }
}

impl fmt::Debug for Parser {
    fn fmt(&self, f: &mut fmt::Formatter<'_>) -> fmt::Result {
        f.debug_struct("Parser")
            .field("events", &self.events)
            .field("failure", &self.failure)
            .finish_non_exhaustive()
    }
}

impl Parser {
    /// A parser at the beginning of a stream, that passes over texts of more than 65,536 bytes and
    /// images of more than 67,108,864.
    #[must_use]
    pub fn new() -> Parser {
        Parser::with_limits(1 << 16, 1 << 26)
    }

    /// One that passes over longer texts of commands, and longer data of device control strings
    /// that are given whole.
    #[must_use]
    pub fn with_limits(text: usize, data: usize) -> Parser {
        Parser {
            events: crate::Parser::with_limit(text),
            taker: Taker::new(data),
            failure: None,
        }
    }

    /// Takes the next bytes of the stream, and calls `callback` with each action. Characters of a
    /// run come in one `PrintString` or several, a single one as `Print`; a string that is
    /// unfinished gives its action when it ends.
    ///
    /// After a [failure](Parser::failure) it calls nothing.
    #[inline]
    pub fn parse<F: FnMut(Action)>(&mut self, bytes: &[u8], callback: F) {
        self.give(bytes, Owned(callback));
    }

    /// The same with borrowed actions, which copy nothing: printed text lies in `bytes`, and all
    /// else in the parser's memory. Their [`into_owned`](borrowed::Action::into_owned) gives the
    /// actions of [`parse`](Parser::parse).
    ///
    /// ```
    /// use escape_stream::action::Parser;
    /// use escape_stream::borrowed::Action;
    ///
    /// let mut columns = Vec::new();
    /// Parser::new().parse_borrowed(b"\x1b[2;5Ha\x1b[7Gb", |action| {
    ///     if let Action::CSI(sequence) = action {
    ///         columns.push(sequence.params.last().and_then(|it| it.number()));
    ///     }
    /// });
    /// assert_eq!(columns, [Some(5), Some(7)]);
    /// ```
    #[inline]
    pub fn parse_borrowed<F: FnMut(borrowed::Action<'_>)>(&mut self, bytes: &[u8], callback: F) {
        self.give(bytes, Borrowed(callback));
    }

    /// The same as [`parse`](Parser::parse) with the end of each string, so that an answer can end
    /// in the same way, and a command that was cancelled can be dropped. It comes with a command,
    /// an image or a query, and with the last action of another device control string; `None` comes
    /// with any other action.
    ///
    /// ```
    /// use escape_stream::StringEnd;
    /// use escape_stream::action::{Action, Parser};
    ///
    /// let mut obeyed = Vec::new();
    /// Parser::new().parse_with_ends(b"\x1b]2;a\x07\x1b]2;b\x18", |action, end| {
    ///     if let (Action::OperatingSystemCommand(it), Some(StringEnd::Bell)) = (action, end) {
    ///         obeyed.push(it.to_string());
    ///     }
    /// });
    /// assert_eq!(obeyed, ["\x1b]2;a\x1b\\"]);
    /// ```
    pub fn parse_with_ends<F: FnMut(Action, Option<StringEnd>)>(
        &mut self,
        bytes: &[u8],
        mut callback: F,
    ) {
        self.take(bytes, |taker, event, taken| {
            let end = StringEnd::of(&event, taken);
            let act = |action| callback(action, end);
            taker.take(event, &mut Owned(act)).map(|()| true)
        });
    }

    /// Whether no sequence, no string and no character is unfinished after the bytes so far, so
    /// that a recorder may cut the stream here.
    ///
    /// ```
    /// let mut parser = escape_stream::action::Parser::new();
    /// parser.parse(b"a\x1b[1", |_| {});
    /// assert!(!parser.is_ground());
    /// parser.parse(b"m", |_| {});
    /// assert!(parser.is_ground());
    /// ```
    #[must_use]
    pub fn is_ground(&self) -> bool {
        self.events.is_ground()
    }

    // Gives the actions of the next bytes.
    #[inline(always)]
    fn give(&mut self, bytes: &[u8], mut to: impl Receiver) {
        if self.failure.is_some() {
            return;
        }
        let mut rest = bytes;
        loop {
            let taken = self.events.step(rest);
            // The commonest first, each in its own call, so that a closure can be inlined.
            let event = self.events.raw_event();
            if event.kind == kind::CSI {
                to.sequence(event);
            } else if event.kind == kind::TEXT {
                to.run(ffi::text(event, rest));
            } else if event.kind == kind::CONTROL {
                if let Some(code) = ControlCode::from_byte(event.byte as u8) {
                    to.act(borrowed::Action::Control(code));
                }
            } else if event.kind == kind::ESCAPE {
                let escape = Esc::of(event.intermediates(), event.byte as u8);
                to.act(borrowed::Action::Esc(escape));
            } else if event.kind == kind::OSC {
                let done = to.command(self.events.string(), &mut self.taker.room);
                if self.done(done).is_none() {
                    return;
                }
            } else if event.kind == kind::NONE || !self.take_other(rest, &mut to) {
                return;
            }
            rest = &rest[taken..];
            if rest.is_empty() && !self.events.is_due() {
                return;
            }
        }
    }

    // Gives the actions of the event of a call that was given these bytes, and says whether it did
    // not fail.
    #[inline(never)]
    fn take_other(&mut self, bytes: &[u8], to: &mut impl Receiver) -> bool {
        let taken = match self.events.raw_event().kind {
            kind::FAILED => Err(Error::Failed),
            _ => self.taker.take(self.events.noted(bytes), to),
        };
        self.done(taken).is_some()
    }

    // The value of a call. An error is kept.
    fn done<T>(&mut self, result: Result<T, Error>) -> Option<T> {
        result.map_err(|error| self.failure = Some(error)).ok()
    }

    /// The actions of the next bytes of the stream, with printed texts joined.
    ///
    /// After a [failure](Parser::failure) there are none.
    pub fn parse_as_vec(&mut self, bytes: &[u8]) -> Vec<Action> {
        let mut actions = Vec::new();
        self.parse(bytes, |action| action.append_to(&mut actions));
        actions
    }

    /// Takes the next bytes of the stream up to the end of the first action, and returns it with
    /// how many bytes these are. For a run of characters it is the first one. Further actions of
    /// its last byte are dropped, as that of a CAN which ends a command.
    ///
    /// `None` if the bytes give no action: then all were taken. After a
    /// [failure](Parser::failure) it takes none.
    ///
    /// ```
    /// use escape_stream::action::{Action, ControlCode, Parser};
    ///
    /// let mut parser = Parser::new();
    /// let bytes = b"ab\n\x1b[";
    /// assert_eq!(parser.parse_first(bytes), Some((Action::Print('a'), 1)));
    /// assert_eq!(parser.parse_first(&bytes[1..]), Some((Action::Print('b'), 1)));
    /// let feed = Action::Control(ControlCode::LineFeed);
    /// assert_eq!(parser.parse_first(&bytes[2..]), Some((feed, 1)));
    /// assert_eq!(parser.parse_first(&bytes[3..]), None);
    /// ```
    pub fn parse_first(&mut self, bytes: &[u8]) -> Option<(Action, usize)> {
        let mut first = None;
        let count = self.take_first(bytes, |action| {
            first.get_or_insert(action);
        });
        first.map(|action| (action, count))
    }

    /// Takes the next bytes of the stream up to the first place with an action and no sequence and
    /// no string unfinished, and returns all actions of these bytes with the number of the bytes.
    /// So a string comes with its terminator.
    ///
    /// `None` if there is no such place: then all bytes were taken, and their actions are dropped.
    /// After a [failure](Parser::failure) it takes none.
    ///
    /// ```
    /// use escape_stream::action::Parser;
    ///
    /// let bytes = b"\x1b]2;title\x1b\\text";
    /// let (actions, count) = Parser::new().parse_first_as_vec(bytes).unwrap();
    /// assert_eq!((actions.len(), count), (2, 11));
    /// ```
    pub fn parse_first_as_vec(&mut self, bytes: &[u8]) -> Option<(Vec<Action>, usize)> {
        let mut actions = Vec::new();
        let mut count = self.take_first(bytes, |action| actions.push(action));
        if actions.is_empty() {
            return None;
        }
        while !self.events.is_ground() {
            // Bytes that are no data may end a sequence without an action.
            let length = if self.taker.device.is_open() {
                bytes.len()
            } else {
                count + 1
            };
            let chunk = bytes.get(count..length).filter(|it| !it.is_empty())?;
            count += self.take(chunk, |taker, event, _| {
                let push = |action| actions.push(action);
                taker.take(event, &mut Owned(push)).map(|()| false)
            });
            if self.failure.is_some() {
                return None;
            }
        }
        Some((actions, count))
    }

    /// The actions of the next bytes of the stream, one after another. Characters of a run come
    /// in one `PrintString` or several.
    ///
    /// ```
    /// use escape_stream::action::{Action, Parser};
    ///
    /// let mut parser = Parser::new();
    /// let printed = parser.actions(b"a\x1b[1mbc").filter_map(|action| match action {
    ///     Action::Print(c) => Some(c.to_string()),
    ///     Action::PrintString(text) => Some(text),
    ///     _ => None,
    /// });
    /// assert_eq!(printed.collect::<String>(), "abc");
    /// ```
    pub fn actions<'a, 'b>(&'a mut self, bytes: &'b [u8]) -> Actions<'a, 'b> {
        Actions {
            parser: self,
            rest: bytes,
            ready: VecDeque::new(),
        }
    }

    /// Why it gives nothing any more, if it failed: if memory was refused, or for
    /// [`Error::Failed`], which the clauses of the library's calls exclude. Bytes after the failure
    /// are not taken.
    #[must_use]
    pub fn failure(&self) -> Option<Error> {
        self.failure
    }

    // Takes bytes up to the end of the first action, calls `act` with each action of its last byte,
    // and returns how many bytes were taken.
    fn take_first(&mut self, bytes: &[u8], mut act: impl FnMut(Action)) -> usize {
        // Only the first character or byte of a run is taken: a run changes no state.
        let mut excess = 0;
        let count = self.take(bytes, |taker, event, _| {
            let mut goes_on = true;
            let event = match event {
                Event::Text(run) => {
                    let first = run.chars().next().map_or(0, char::len_utf8);
                    excess = run.len() - first;
                    Event::Text(&run[..first])
                }
                Event::Data(run) if taker.device.is_mode() => {
                    excess = run.len() - 1;
                    Event::Data(&run[..1])
                }
                _ => event,
            };
            let act = |action| {
                goes_on = false;
                act(action);
            };
            taker.take(event, &mut Owned(act))?;
            Ok(goes_on)
        });
        count.saturating_sub(excess)
    }

    // Takes bytes, all of them or up to an event for which `act` is false, and returns how many.
    #[inline]
    fn take(
        &mut self,
        bytes: &[u8],
        mut act: impl FnMut(&mut Taker, Event<'_>, &[u8]) -> Result<bool, Error>,
    ) -> usize {
        if self.failure.is_some() {
            return 0;
        }
        let (taker, failure) = (&mut self.taker, &mut self.failure);
        let taken = self.events.advance_while(bytes, |event, taken| {
            act(taker, event, taken).unwrap_or_else(|error| {
                *failure = Some(error);
                false
            })
        });
        taken.unwrap_or_else(|error| {
            self.failure = Some(error);
            0
        })
    }
}

/// The actions of some bytes, one after another: the iterator of [`Parser::actions`]. Bytes are
/// taken as they are needed. If it is dropped before its end, [`rest`](Actions::rest) are not
/// taken.
#[derive(Debug)]
pub struct Actions<'a, 'b> {
    parser: &'a mut Parser,
    rest: &'b [u8],
    ready: VecDeque<Action>,
}

impl<'b> Actions<'_, 'b> {
    /// The bytes that are not taken yet.
    #[must_use]
    pub fn rest(&self) -> &'b [u8] {
        self.rest
    }
}

impl Iterator for Actions<'_, '_> {
    type Item = Action;

    fn next(&mut self) -> Option<Action> {
        while self.ready.is_empty() && !self.rest.is_empty() && self.parser.failure.is_none() {
            let ready = &mut self.ready;
            let taken = self.parser.take(self.rest, |taker, event, _| {
                let push = |action| ready.push_back(action);
                taker.take(event, &mut Owned(push))?;
                Ok(ready.is_empty())
            });
            self.rest = self.rest.get(taken..).unwrap_or_default();
        }
        self.ready.pop_front()
    }
}

impl FusedIterator for Actions<'_, '_> {}
