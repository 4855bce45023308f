// SPDX-License-Identifier: MIT
//! Semantic prompts.
use crate::fields::{Fields, name};
use alloc::string::String;

/// A mark that a shell writes between its prompts, the user's input, and the output of commands
/// (FinalTerm; operating system command 133, with a letter after the code).
#[derive(Clone, Debug, PartialEq, Eq)]
#[cfg_attr(feature = "serde", derive(serde::Serialize, serde::Deserialize))]
#[non_exhaustive]
pub enum FinalTermSemanticPrompt {
    /// `L`: goes to the start of a new line, unless the cursor is at the start of one.
    FreshLine,
    /// `A`: as `FreshLine`, and a prompt begins.
    FreshLineAndStartPrompt {
        /// The name of the application, if it is given.
        aid: Option<String>,
        /// The effect of a click, if it is given.
        cl: Option<FinalTermClick>,
    },
    /// `N`: the command before ends, and then as `FreshLineAndStartPrompt`.
    MarkEndOfCommandWithFreshLine {
        /// The name of the application, if it is given.
        aid: Option<String>,
        /// The effect of a click, if it is given.
        cl: Option<FinalTermClick>,
    },
    /// `P`: a prompt of this kind begins.
    StartPrompt(FinalTermPromptKind),
    /// `B`: the prompt ends, and the input begins. It goes on to the next mark.
    MarkEndOfPromptAndStartOfInputUntilNextMarker,
    /// `I`: the prompt ends, and the input begins. It goes on to the end of the line.
    MarkEndOfPromptAndStartOfInputUntilEndOfLine,
    /// `C`: the input ends, and the output begins.
    MarkEndOfInputAndStartOfOutput {
        /// The name of the application, if it is given.
        aid: Option<String>,
    },
    /// `D`: the command ends.
    CommandStatus {
        /// With what status; 0 if none is given.
        status: i32,
        /// The name of the application, if it is given.
        aid: Option<String>,
    },
}

/// Which movements of the cursor the shell takes when the user clicks on its input (FinalTerm; key
/// `cl`).
#[derive(Clone, Copy, Debug, PartialEq, Eq, Hash)]
#[cfg_attr(feature = "serde", derive(serde::Serialize, serde::Deserialize))]
pub enum FinalTermClick {
    /// `line`: to the left and to the right within one line.
    Line,
    /// `m`: to the left and to the right over more lines.
    MultipleLine,
    /// `v`: also up and down, conservatively.
    ConservativeVertical,
    /// `w`: also up and down, smartly: the shell knows where its lines end.
    SmartVertical,
}

impl FinalTermClick {
    pub(crate) fn of(fields: &mut Fields<'_>) -> Option<Option<FinalTermClick>> {
        if !fields.has(name::CLICK) {
            return Some(None);
        }
        Some(Some(match fields.number::<u8>(name::CLICK)? {
            0 => FinalTermClick::Line,
            1 => FinalTermClick::MultipleLine,
            2 => FinalTermClick::ConservativeVertical,
            3 => FinalTermClick::SmartVertical,
            _ => return None,
        }))
    }
}

/// Which prompt begins (FinalTerm; key `k`).
#[derive(Clone, Copy, Debug, Default, PartialEq, Eq, Hash)]
#[cfg_attr(feature = "serde", derive(serde::Serialize, serde::Deserialize))]
pub enum FinalTermPromptKind {
    /// `i`: the first prompt, at the left.
    #[default]
    Initial,
    /// `r`: a prompt at the right side.
    RightSide,
    /// `c`: a prompt of a further line, in which the user can still go back to the lines before.
    Continuation,
    /// `s`: a prompt of a further line, in which the user can no more go back.
    Secondary,
}

impl FinalTermPromptKind {
    pub(crate) fn of(fields: &mut Fields<'_>) -> Option<FinalTermPromptKind> {
        Some(match fields.number::<u8>(name::PROMPT_KIND)? {
            0 => FinalTermPromptKind::Initial,
            1 => FinalTermPromptKind::RightSide,
            2 => FinalTermPromptKind::Continuation,
            3 => FinalTermPromptKind::Secondary,
            _ => return None,
        })
    }
}
