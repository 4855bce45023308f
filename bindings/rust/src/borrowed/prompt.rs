// SPDX-License-Identifier: MIT
//! Semantic prompts.
use crate::fields::{Fields, kind, name};
use crate::osc::{self, FinalTermClick, FinalTermPromptKind};

/// A mark that a shell writes between its prompts, the user's input, and the output of commands
/// (FinalTerm; operating system command 133, with a letter after the code).
#[derive(Clone, Copy, Debug, PartialEq, Eq)]
#[non_exhaustive]
pub enum FinalTermSemanticPrompt<'a> {
    /// `L`: goes to the start of a new line, unless the cursor is at the start of one.
    FreshLine,
    /// `A`: as `FreshLine`, and a prompt begins.
    FreshLineAndStartPrompt {
        /// The name of the application, if it is given.
        aid: Option<&'a str>,
        /// The effect of a click, if it is given.
        cl: Option<FinalTermClick>,
    },
    /// `N`: the command before ends, and then as `FreshLineAndStartPrompt`.
    MarkEndOfCommandWithFreshLine {
        /// The name of the application, if it is given.
        aid: Option<&'a str>,
        /// The effect of a click, if it is given.
        cl: Option<FinalTermClick>,
    },
    /// `P`: a prompt of this kind begins.
    StartPrompt(FinalTermPromptKind),
    /// `B`: the prompt ends, and the input begins. It goes on to the next mark.
    MarkEndOfPromptAndStartOfInputUntilNextMarker,
    /// `I`: the prompt ends, and the input begins. It goes on to the end of the line.
    MarkEndOfPromptAndStartOfInputUntilEndOfLine,
    /// `C`: the input ends, and the output begins.
    MarkEndOfInputAndStartOfOutput {
        /// The name of the application, if it is given.
        aid: Option<&'a str>,
    },
    /// `D`: the command ends.
    CommandStatus {
        /// With what status; 0 if none is given.
        status: i32,
        /// The name of the application, if it is given.
        aid: Option<&'a str>,
    },
}

impl<'a> FinalTermSemanticPrompt<'a> {
    pub(super) fn of(of: u32, fields: &mut Fields<'a>) -> Option<FinalTermSemanticPrompt<'a>> {
        use FinalTermSemanticPrompt as Prompt;
        Some(match of {
            kind::PROMPT_FRESH_LINE => Prompt::FreshLine,
            kind::PROMPT_FRESH_LINE_AND_START_PROMPT => Prompt::FreshLineAndStartPrompt {
                aid: fields.optional_text(name::APPLICATION)?,
                cl: FinalTermClick::of(fields)?,
            },
            kind::PROMPT_END_OF_COMMAND_WITH_FRESH_LINE => Prompt::MarkEndOfCommandWithFreshLine {
                aid: fields.optional_text(name::APPLICATION)?,
                cl: FinalTermClick::of(fields)?,
            },
            kind::PROMPT_START_PROMPT => Prompt::StartPrompt(FinalTermPromptKind::of(fields)?),
            kind::PROMPT_START_OF_INPUT_UNTIL_NEXT_MARKER => {
                Prompt::MarkEndOfPromptAndStartOfInputUntilNextMarker
            }
            kind::PROMPT_START_OF_INPUT_UNTIL_END_OF_LINE => {
                Prompt::MarkEndOfPromptAndStartOfInputUntilEndOfLine
            }
            kind::PROMPT_START_OF_OUTPUT => Prompt::MarkEndOfInputAndStartOfOutput {
                aid: fields.optional_text(name::APPLICATION)?,
            },
            kind::PROMPT_COMMAND_STATUS => Prompt::CommandStatus {
                status: fields.number(name::STATUS)?,
                aid: fields.optional_text(name::APPLICATION)?,
            },
            _ => return None,
        })
    }

    /// The owned prompt.
    #[must_use]
    pub fn into_owned(self) -> osc::FinalTermSemanticPrompt {
        use FinalTermSemanticPrompt as Borrowed;
        use osc::FinalTermSemanticPrompt as Prompt;
        match self {
            Borrowed::FreshLine => Prompt::FreshLine,
            Borrowed::FreshLineAndStartPrompt { aid, cl } => Prompt::FreshLineAndStartPrompt {
                aid: aid.map(Into::into),
                cl,
            },
            Borrowed::MarkEndOfCommandWithFreshLine { aid, cl } => {
                Prompt::MarkEndOfCommandWithFreshLine {
                    aid: aid.map(Into::into),
                    cl,
                }
            }
            Borrowed::StartPrompt(of) => Prompt::StartPrompt(of),
            Borrowed::MarkEndOfPromptAndStartOfInputUntilNextMarker => {
                Prompt::MarkEndOfPromptAndStartOfInputUntilNextMarker
            }
            Borrowed::MarkEndOfPromptAndStartOfInputUntilEndOfLine => {
                Prompt::MarkEndOfPromptAndStartOfInputUntilEndOfLine
            }
            Borrowed::MarkEndOfInputAndStartOfOutput { aid } => {
                Prompt::MarkEndOfInputAndStartOfOutput {
                    aid: aid.map(Into::into),
                }
            }
            Borrowed::CommandStatus { status, aid } => Prompt::CommandStatus {
                status,
                aid: aid.map(Into::into),
            },
        }
    }
}
