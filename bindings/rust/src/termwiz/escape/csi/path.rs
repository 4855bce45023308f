// SPDX-License-Identifier: MIT
//! The direction of text.
use super::sequence::Sequence;
use crate::termwiz::choices::choices;

choices! {
    /// The direction in which characters follow one another, by SCP.
    CharacterPath {
        /// The terminal chooses.
        ImplementationDefault = 0,
        /// They go to the right, or down.
        LeftToRightOrTopToBottom = 1,
        /// They go to the left, or up.
        RightToLeftOrBottomToTop = 2,
    }
}

/// The direction of a sequence SCP, and what it does to the characters that are there.
pub fn character_path(sequence: &Sequence<'_>) -> Option<(CharacterPath, i64)> {
    if sequence.prefix.is_some() || sequence.intermediate != Some(b' ') || sequence.last != 'k' {
        return None;
    }
    let [path, effect] = sequence.numbers()?;
    Some((CharacterPath::of(path.unwrap_or(0))?, effect.unwrap_or(0)))
}
