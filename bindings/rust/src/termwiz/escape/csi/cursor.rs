// SPDX-License-Identifier: MIT
//! Control sequences of the cursor.
use super::sequence::{Sequence, counted, write_choice, write_count};
use crate::termwiz::choices::choices;
use crate::termwiz::escape::OneBased;
use core::fmt;

/// A request to the cursor, or to its margins. Counts are from 1 on.
#[derive(Clone, Copy, Debug, PartialEq, Eq)]
#[cfg_attr(feature = "serde", derive(serde::Serialize, serde::Deserialize))]
pub enum Cursor {
    /// CBT moves back so many tab stops.
    BackwardTabulation(u32),
    /// TBC clears tab stops.
    TabulationClear(TabulationClear),
    /// CHA moves to this column.
    CharacterAbsolute(OneBased),
    /// HPA moves to this column.
    CharacterPositionAbsolute(OneBased),
    /// HPB moves left so many columns.
    CharacterPositionBackward(u32),
    /// HPR moves right so many columns.
    CharacterPositionForward(u32),
    /// HVP moves to this line and column.
    CharacterAndLinePosition {
        /// The line.
        line: OneBased,
        /// The column.
        col: OneBased,
    },
    /// VPA moves to this line.
    LinePositionAbsolute(u32),
    /// VPB moves up so many lines.
    LinePositionBackward(u32),
    /// VPR moves down so many lines.
    LinePositionForward(u32),
    /// CHT moves on so many tab stops.
    ForwardTabulation(u32),
    /// CNL moves to the start of the line so many below.
    NextLine(u32),
    /// CPL moves to the start of the line so many above.
    PrecedingLine(u32),
    /// CPR reports that it is at this line and column.
    ActivePositionReport {
        /// The line.
        line: OneBased,
        /// The column.
        col: OneBased,
    },
    /// DSR asks where it is.
    RequestActivePositionReport,
    /// SCOSC saves it.
    SaveCursor,
    /// SCORC restores it.
    RestoreCursor,
    /// CTC sets or clears tab stops.
    TabulationControl(CursorTabulationControl),
    /// CUB moves left so many columns.
    Left(u32),
    /// CUD moves down so many lines.
    Down(u32),
    /// CUF moves right so many columns.
    Right(u32),
    /// CUP moves to this line and column.
    Position {
        /// The line.
        line: OneBased,
        /// The column.
        col: OneBased,
    },
    /// CUU moves up so many lines.
    Up(u32),
    /// CVT moves down so many tab stops of lines.
    LineTabulation(u32),
    /// DECSTBM says which lines scroll.
    SetTopAndBottomMargins {
        /// The first one.
        top: OneBased,
        /// The last one: the greatest number if none was given.
        bottom: OneBased,
    },
    /// DECSLRM says which columns scroll.
    SetLeftAndRightMargins {
        /// The first one.
        left: OneBased,
        /// The last one: the greatest number if none was given.
        right: OneBased,
    },
    /// DECSCUSR says how it looks.
    CursorStyle(CursorStyle),
}

choices! {
    /// The look of the cursor.
    #[derive(Default)]
    CursorStyle {
        /// The terminal chooses.
        #[default]
        Default = 0,
        /// It is a block, and blinks.
        BlinkingBlock = 1,
        /// It is a block.
        SteadyBlock = 2,
        /// It is a line below, and blinks.
        BlinkingUnderline = 3,
        /// It is a line below.
        SteadyUnderline = 4,
        /// It is a bar, and blinks.
        BlinkingBar = 5,
        /// It is a bar.
        SteadyBar = 6,
    }
}

choices! {
    /// The effect of CTC.
    CursorTabulationControl {
        /// A stop is set in the column.
        SetCharacterTabStopAtActivePosition = 0,
        /// A stop is set in the line.
        SetLineTabStopAtActiveLine = 1,
        /// The stop in the column is cleared.
        ClearCharacterTabStopAtActivePosition = 2,
        /// The stop in the line is cleared.
        ClearLineTabstopAtActiveLine = 3,
        /// The stops of the line are cleared.
        ClearAllCharacterTabStopsAtActiveLine = 4,
        /// The stops in columns are cleared.
        ClearAllCharacterTabStops = 5,
        /// The stops in lines are cleared.
        ClearAllLineTabStops = 6,
    }
}

choices! {
    /// The stops that TBC clears.
    TabulationClear {
        /// The stop in the column is cleared.
        ClearCharacterTabStopAtActivePosition = 0,
        /// The stop in the line is cleared.
        ClearLineTabStopAtActiveLine = 1,
        /// The stops of the line are cleared.
        ClearCharacterTabStopsAtActiveLine = 2,
        /// The stops in columns are cleared.
        ClearAllCharacterTabStops = 3,
        /// The stops in lines are cleared.
        ClearAllLineTabStops = 4,
        /// Each stop is cleared.
        ClearAllTabStops = 5,
    }
}

impl Cursor {
    pub(super) fn of(sequence: &Sequence<'_>) -> Option<Cursor> {
        match (sequence.prefix, sequence.intermediate) {
            (None, None) => Cursor::plain(sequence),
            (None, Some(b' ')) if sequence.last == 'q' => {
                CursorStyle::of(sequence.choice()?).map(Cursor::CursorStyle)
            }
            _ => None,
        }
    }

    // The one without a prefix and an intermediate.
    fn plain(sequence: &Sequence<'_>) -> Option<Cursor> {
        Some(match sequence.last {
            'A' => Cursor::Up(sequence.count()?),
            'B' => Cursor::Down(sequence.count()?),
            'C' => Cursor::Right(sequence.count()?),
            'D' => Cursor::Left(sequence.count()?),
            'E' => Cursor::NextLine(sequence.count()?),
            'F' => Cursor::PrecedingLine(sequence.count()?),
            'I' => Cursor::ForwardTabulation(sequence.count()?),
            'Y' => Cursor::LineTabulation(sequence.count()?),
            'Z' => Cursor::BackwardTabulation(sequence.count()?),
            'a' => Cursor::CharacterPositionForward(sequence.count()?),
            'd' => Cursor::LinePositionAbsolute(sequence.count()?),
            'e' => Cursor::LinePositionForward(sequence.count()?),
            'j' => Cursor::CharacterPositionBackward(sequence.count()?),
            'k' => Cursor::LinePositionBackward(sequence.count()?),
            'g' => Cursor::TabulationClear(TabulationClear::of(sequence.choice()?)?),
            'W' => Cursor::TabulationControl(CursorTabulationControl::of(sequence.choice()?)?),
            'n' if sequence.choice()? == 6 => Cursor::RequestActivePositionReport,
            's' if sequence.params.is_empty() => Cursor::SaveCursor,
            'u' if sequence.params.is_empty() => Cursor::RestoreCursor,
            _ => return Cursor::placed(sequence),
        })
    }

    // The one of a line and a column, or of two of either.
    fn placed(sequence: &Sequence<'_>) -> Option<Cursor> {
        if let 'G' | '`' = sequence.last {
            let col = OneBased::new(sequence.count()?);
            return Some(match sequence.last {
                'G' => Cursor::CharacterAbsolute(col),
                _ => Cursor::CharacterPositionAbsolute(col),
            });
        }
        let [first, second] = sequence.numbers()?;
        let (line, col) = (first_of(first)?, first_of(second)?);
        Some(match sequence.last {
            'H' => Cursor::Position { line, col },
            'f' => Cursor::CharacterAndLinePosition { line, col },
            'R' => Cursor::ActivePositionReport { line, col },
            'r' => Cursor::SetTopAndBottomMargins {
                top: line,
                bottom: last_of(second)?,
            },
            's' => Cursor::SetLeftAndRightMargins {
                left: line,
                right: last_of(second)?,
            },
            _ => return None,
        })
    }
}

// A line or a column, 1 if none is given.
fn first_of(number: Option<i64>) -> Option<OneBased> {
    counted(number).map(OneBased::new)
}

// A last line or column, the greatest if none is given.
fn last_of(number: Option<i64>) -> Option<OneBased> {
    OneBased::from_esc_param_with_big_default(&super::CsiParam::Integer(number.unwrap_or(0))).ok()
}

// Writes the first and the last line or column.
fn write_margins(first: OneBased, last: OneBased, f: &mut fmt::Formatter<'_>) -> fmt::Result {
    match last.as_one_based() {
        u32::MAX if first.as_one_based() == 1 => Ok(()),
        u32::MAX => write!(f, "{first}"),
        last => write!(f, "{first};{last}"),
    }
}

// The text after `ESC [`.
impl fmt::Display for Cursor {
    fn fmt(&self, f: &mut fmt::Formatter<'_>) -> fmt::Result {
        let last = match *self {
            Cursor::Up(n) => write_count(n, f).map(|()| "A"),
            Cursor::Down(n) => write_count(n, f).map(|()| "B"),
            Cursor::Right(n) => write_count(n, f).map(|()| "C"),
            Cursor::Left(n) => write_count(n, f).map(|()| "D"),
            Cursor::NextLine(n) => write_count(n, f).map(|()| "E"),
            Cursor::PrecedingLine(n) => write_count(n, f).map(|()| "F"),
            Cursor::CharacterAbsolute(n) => write_count(n.as_one_based(), f).map(|()| "G"),
            Cursor::ForwardTabulation(n) => write_count(n, f).map(|()| "I"),
            Cursor::LineTabulation(n) => write_count(n, f).map(|()| "Y"),
            Cursor::BackwardTabulation(n) => write_count(n, f).map(|()| "Z"),
            Cursor::CharacterPositionAbsolute(n) => write_count(n.as_one_based(), f).map(|()| "`"),
            Cursor::CharacterPositionForward(n) => write_count(n, f).map(|()| "a"),
            Cursor::LinePositionAbsolute(n) => write_count(n, f).map(|()| "d"),
            Cursor::LinePositionForward(n) => write_count(n, f).map(|()| "e"),
            Cursor::CharacterPositionBackward(n) => write_count(n, f).map(|()| "j"),
            Cursor::LinePositionBackward(n) => write_count(n, f).map(|()| "k"),
            Cursor::TabulationClear(it) => write_choice(it.number(), f).map(|()| "g"),
            Cursor::TabulationControl(it) => write_choice(it.number(), f).map(|()| "W"),
            Cursor::CursorStyle(it) => write_choice(it.number(), f).map(|()| " q"),
            Cursor::Position { line, col } => write!(f, "{line};{col}").map(|()| "H"),
            Cursor::CharacterAndLinePosition { line, col } => {
                write!(f, "{line};{col}").map(|()| "f")
            }
            Cursor::ActivePositionReport { line, col } => write!(f, "{line};{col}").map(|()| "R"),
            Cursor::SetTopAndBottomMargins { top, bottom } => {
                write_margins(top, bottom, f).map(|()| "r")
            }
            // Without a number it would save the cursor.
            Cursor::SetLeftAndRightMargins { left, right } => {
                write!(f, "{left};{right}").map(|()| "s")
            }
            Cursor::SaveCursor => Ok("s"),
            Cursor::RestoreCursor => Ok("u"),
            Cursor::RequestActivePositionReport => Ok("6n"),
        };
        f.write_str(last?)
    }
}
