// SPDX-License-Identifier: MIT
//! The parts of a control sequence.
use core::fmt;

/// An entry of a control sequence: a number, or a byte that is no digit.
#[derive(Clone, Copy, Debug, PartialEq, Eq, Hash)]
#[cfg_attr(feature = "serde", derive(serde::Serialize, serde::Deserialize))]
pub enum CsiParam {
    /// A number.
    Integer(i64),
    /// A private prefix, `;`, `:` or an intermediate.
    P(u8),
}

impl CsiParam {
    /// Its number, if it is one.
    #[must_use]
    pub fn as_integer(&self) -> Option<i64> {
        match *self {
            CsiParam::Integer(number) => Some(number),
            CsiParam::P(_) => None,
        }
    }
}

impl fmt::Display for CsiParam {
    fn fmt(&self, f: &mut fmt::Formatter<'_>) -> fmt::Result {
        match *self {
            CsiParam::Integer(number) => number.fmt(f),
            CsiParam::P(byte) => char::from(byte).fmt(f),
        }
    }
}

/// The private prefix, the parameters, the intermediate and the final byte of a control sequence.
#[derive(Clone, Copy)]
pub struct Sequence<'a> {
    pub prefix: Option<u8>,
    pub params: &'a [CsiParam],
    pub intermediate: Option<u8>,
    pub last: char,
}

impl<'a> Sequence<'a> {
    /// The parts of these entries, if they are in order, with one intermediate at most.
    pub fn of(entries: &'a [CsiParam], last: char) -> Option<Sequence<'a>> {
        let (prefix, entries) = match entries {
            [CsiParam::P(byte @ b'<'..=b'?'), rest @ ..] => (Some(*byte), rest),
            _ => (None, entries),
        };
        let (intermediate, params) = match entries {
            [rest @ .., CsiParam::P(byte @ b' '..=b'/')] => (Some(*byte), rest),
            _ => (None, entries),
        };
        params.iter().all(is_parameter).then_some(Sequence {
            prefix,
            params,
            intermediate,
            last,
        })
    }

    /// Its parameters, if there are at most so many, without `:`. One that is left out is `None`.
    #[inline]
    pub fn numbers<const N: usize>(&self) -> Option<[Option<i64>; N]> {
        let mut numbers = [None; N];
        let mut at = 0;
        for entry in self.params {
            match *entry {
                CsiParam::Integer(number) => *numbers.get_mut(at)? = Some(number),
                CsiParam::P(b';') if at + 1 < N => at += 1,
                CsiParam::P(_) => return None,
            }
        }
        Some(numbers)
    }

    // Its one parameter, if it has no more: `None` if it is left out.
    #[inline]
    fn number(&self) -> Option<Option<i64>> {
        match *self.params {
            [] => Some(None),
            [CsiParam::Integer(number)] => Some(Some(number)),
            _ => None,
        }
    }

    /// Its one parameter, from 1 on: 1 if it is 0 or left out.
    #[inline]
    pub fn count(&self) -> Option<u32> {
        self.number().and_then(counted)
    }

    /// Its one parameter, 0 if it is left out.
    #[inline]
    pub fn choice(&self) -> Option<i64> {
        self.number().map(|it| it.unwrap_or(0))
    }
}

/// Whether an entry belongs to the parameters.
#[inline]
pub fn is_parameter(entry: &CsiParam) -> bool {
    matches!(entry, CsiParam::Integer(_) | CsiParam::P(b';' | b':'))
}

/// A number that counts from 1.
#[inline]
pub fn counted(number: Option<i64>) -> Option<u32> {
    match number {
        None | Some(0) => Some(1),
        Some(number) => u32::try_from(number).ok(),
    }
}

/// Writes a number that counts from 1, but not 1.
pub fn write_count(count: u32, f: &mut fmt::Formatter<'_>) -> fmt::Result {
    if count == 1 {
        Ok(())
    } else {
        write!(f, "{count}")
    }
}

/// Writes the number of a choice, but not 0.
pub fn write_choice(choice: u32, f: &mut fmt::Formatter<'_>) -> fmt::Result {
    if choice == 0 {
        Ok(())
    } else {
        write!(f, "{choice}")
    }
}
