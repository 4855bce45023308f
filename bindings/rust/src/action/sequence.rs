// SPDX-License-Identifier: MIT
//! Control and escape sequences.
use super::Entries;
use crate::{ControlFunction, EscapeFunction};

/// A control sequence: its entries and its final byte, as `termwiz` has one of which it knows no
/// more in its `Unspecified`. [`function`](CSI::function) names it.
#[derive(Clone, Debug, PartialEq, Eq)]
#[cfg_attr(feature = "serde", derive(serde::Serialize, serde::Deserialize))]
pub struct CSI {
    /// Numbers and bytes in order: private prefix, parameters, separators, intermediates.
    /// [`Parameters`](crate::Parameters) reads them.
    pub params: Entries,
    /// Whether more came than are kept.
    pub parameters_truncated: bool,
    /// The final byte.
    pub control: u8,
}

impl CSI {
    /// Its function, by name.
    #[must_use]
    pub fn function(&self) -> Option<ControlFunction> {
        ControlFunction::of_entries(&self.params, self.control)
    }
}

/// An escape sequence. [`function`](Esc::function) names it.
#[derive(Clone, Copy, Debug, PartialEq, Eq, Hash)]
#[cfg_attr(feature = "serde", derive(serde::Serialize, serde::Deserialize))]
pub struct Esc {
    /// The intermediate, if there is exactly one.
    pub intermediate: Option<u8>,
    /// The final byte.
    pub control: u8,
}

impl Esc {
    // The intermediate counts if it is the only one.
    #[inline]
    pub(super) fn of(intermediates: &[u8], control: u8) -> Esc {
        let intermediate = match intermediates {
            [one] => Some(*one),
            _ => None,
        };
        Esc {
            intermediate,
            control,
        }
    }

    /// Its function, by name.
    #[must_use]
    pub fn function(self) -> Option<EscapeFunction> {
        EscapeFunction::of(self.intermediate, self.control)
    }
}
