// SPDX-License-Identifier: MIT
//! The control sequence XTSMGRAPHICS.
use super::sequence::{CsiParam, Sequence};
use crate::termwiz::choices::choices;
use alloc::vec::Vec;
use core::fmt;

/// A request for a limit of graphics, or a report of one.
#[derive(Clone, Debug, PartialEq, Eq)]
#[cfg_attr(feature = "serde", derive(serde::Serialize, serde::Deserialize))]
pub struct XtSmGraphics {
    /// The limited thing.
    pub item: XtSmGraphicsItem,
    /// The action of a request, or the status of a report.
    pub action_or_status: i64,
    /// The limit, which may have several numbers.
    pub value: Vec<i64>,
}

/// A thing with a limit.
#[derive(Clone, Copy, Debug, PartialEq, Eq)]
#[cfg_attr(feature = "serde", derive(serde::Serialize, serde::Deserialize))]
pub enum XtSmGraphicsItem {
    /// The number of colours is.
    NumberOfColorRegisters,
    /// The size of sixel images is.
    SixelGraphicsGeometry,
    /// The size of ReGIS images is.
    RegisGraphicsGeometry,
    /// Something without a name here is.
    Unspecified(i64),
}

choices! {
    /// A request about a limit.
    XtSmGraphicsAction {
        /// It is asked for.
        ReadAttribute = 1,
        /// It is set back.
        ResetToDefault = 2,
        /// It is set.
        SetToValue = 3,
        /// Its greatest value is asked for.
        ReadMaximumAllowedValue = 4,
    }
}

choices! {
    /// The result of a request.
    XtSmGraphicsStatus {
        /// It was done.
        Success = 0,
        /// It named no item.
        InvalidItem = 1,
        /// It named no action.
        InvalidAction = 2,
        /// It was not done.
        Failure = 3,
    }
}

impl XtSmGraphicsAction {
    /// Its number.
    #[must_use]
    pub fn to_i64(&self) -> i64 {
        self.number().into()
    }
}

impl XtSmGraphicsStatus {
    /// Its number.
    #[must_use]
    pub fn to_i64(&self) -> i64 {
        self.number().into()
    }
}

impl XtSmGraphics {
    /// The action, if this is a request.
    #[must_use]
    pub fn action(&self) -> Option<XtSmGraphicsAction> {
        XtSmGraphicsAction::of(self.action_or_status)
    }

    /// The status, if this is a report.
    #[must_use]
    pub fn status(&self) -> Option<XtSmGraphicsStatus> {
        XtSmGraphicsStatus::of(self.action_or_status)
    }

    pub(super) fn of(sequence: &Sequence<'_>) -> Option<XtSmGraphics> {
        let mut parts = sequence.params.split(|it| *it == CsiParam::P(b';'));
        let number = |part: &[CsiParam]| match part {
            [CsiParam::Integer(number)] => Some(*number),
            _ => None,
        };
        let item = match parts.next().and_then(number)? {
            1 => XtSmGraphicsItem::NumberOfColorRegisters,
            2 => XtSmGraphicsItem::SixelGraphicsGeometry,
            3 => XtSmGraphicsItem::RegisGraphicsGeometry,
            other => XtSmGraphicsItem::Unspecified(other),
        };
        Some(XtSmGraphics {
            item,
            action_or_status: parts.next().and_then(number)?,
            value: parts.map(number).collect::<Option<Vec<_>>>()?,
        })
    }
}

// The text after `ESC [`.
impl fmt::Display for XtSmGraphics {
    fn fmt(&self, f: &mut fmt::Formatter<'_>) -> fmt::Result {
        let item = match self.item {
            XtSmGraphicsItem::NumberOfColorRegisters => 1,
            XtSmGraphicsItem::SixelGraphicsGeometry => 2,
            XtSmGraphicsItem::RegisGraphicsGeometry => 3,
            XtSmGraphicsItem::Unspecified(other) => other,
        };
        write!(f, "?{item};{}", self.action_or_status)?;
        for number in &self.value {
            write!(f, ";{number}")?;
        }
        f.write_str("S")
    }
}
