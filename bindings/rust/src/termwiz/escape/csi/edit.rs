// SPDX-License-Identifier: MIT
//! Control sequences that edit the screen.
use super::sequence::{Sequence, write_choice, write_count};
use crate::termwiz::choices::choices;
use core::fmt;

/// Inserting, deleting, erasing, repeating and scrolling. Counts are from 1 on.
#[derive(Clone, Copy, Debug, PartialEq, Eq)]
#[cfg_attr(feature = "serde", derive(serde::Serialize, serde::Deserialize))]
pub enum Edit {
    /// DCH deletes so many characters.
    DeleteCharacter(u32),
    /// DL deletes so many lines.
    DeleteLine(u32),
    /// ECH erases so many characters.
    EraseCharacter(u32),
    /// EL erases a line, or some of it.
    EraseInLine(EraseInLine),
    /// ICH inserts so many characters.
    InsertCharacter(u32),
    /// IL inserts so many lines.
    InsertLine(u32),
    /// SD scrolls down so many lines.
    ScrollDown(u32),
    /// SU scrolls up so many lines.
    ScrollUp(u32),
    /// ED erases the screen, or some of it.
    EraseInDisplay(EraseInDisplay),
    /// REP repeats the character before it so many times.
    Repeat(u32),
}

choices! {
    /// The part of the line that EL erases.
    EraseInLine {
        /// It erases what is right of the cursor, and below it.
        EraseToEndOfLine = 0,
        /// It erases what is left of the cursor, and below it.
        EraseToStartOfLine = 1,
        /// It erases the line.
        EraseLine = 2,
    }
}

choices! {
    /// The part of the screen that ED erases.
    EraseInDisplay {
        /// It erases what comes after the cursor.
        EraseToEndOfDisplay = 0,
        /// It erases what comes before the cursor.
        EraseToStartOfDisplay = 1,
        /// It erases the screen.
        EraseDisplay = 2,
        /// It erases the lines that were scrolled off.
        EraseScrollback = 3,
    }
}

impl Edit {
    pub(super) fn of(sequence: &Sequence<'_>) -> Option<Edit> {
        if sequence.prefix.is_some() || sequence.intermediate.is_some() {
            return None;
        }
        Some(match sequence.last {
            '@' => Edit::InsertCharacter(sequence.count()?),
            'J' => Edit::EraseInDisplay(EraseInDisplay::of(sequence.choice()?)?),
            'K' => Edit::EraseInLine(EraseInLine::of(sequence.choice()?)?),
            'L' => Edit::InsertLine(sequence.count()?),
            'M' => Edit::DeleteLine(sequence.count()?),
            'P' => Edit::DeleteCharacter(sequence.count()?),
            'S' => Edit::ScrollUp(sequence.count()?),
            'T' => Edit::ScrollDown(sequence.count()?),
            'X' => Edit::EraseCharacter(sequence.count()?),
            'b' => Edit::Repeat(sequence.count()?),
            _ => return None,
        })
    }
}

// The text after `ESC [`.
impl fmt::Display for Edit {
    fn fmt(&self, f: &mut fmt::Formatter<'_>) -> fmt::Result {
        let last = match *self {
            Edit::InsertCharacter(n) => write_count(n, f).map(|()| "@"),
            Edit::EraseInDisplay(it) => write_choice(it.number(), f).map(|()| "J"),
            Edit::EraseInLine(it) => write_choice(it.number(), f).map(|()| "K"),
            Edit::InsertLine(n) => write_count(n, f).map(|()| "L"),
            Edit::DeleteLine(n) => write_count(n, f).map(|()| "M"),
            Edit::DeleteCharacter(n) => write_count(n, f).map(|()| "P"),
            Edit::ScrollUp(n) => write_count(n, f).map(|()| "S"),
            Edit::ScrollDown(n) => write_count(n, f).map(|()| "T"),
            Edit::EraseCharacter(n) => write_count(n, f).map(|()| "X"),
            Edit::Repeat(n) => write_count(n, f).map(|()| "b"),
        };
        f.write_str(last?)
    }
}
