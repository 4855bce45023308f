// SPDX-License-Identifier: MIT
//! Numbers that count from 1.
use super::csi::CsiParam;
use core::fmt;

/// A line or a column, counted from 1, as control sequences have it.
#[derive(Clone, Copy, Debug, PartialEq, Eq, PartialOrd, Ord, Hash)]
#[cfg_attr(feature = "serde", derive(serde::Serialize, serde::Deserialize))]
pub struct OneBased {
    value: u32,
}

impl OneBased {
    /// The line or column of this number, which is not 0.
    #[must_use]
    pub fn new(value: u32) -> OneBased {
        debug_assert!(value != 0, "a line or a column is counted from 1");
        OneBased { value }
    }

    /// The one that this number counts from 0.
    #[must_use]
    pub fn from_zero_based(value: u32) -> OneBased {
        OneBased {
            value: value.saturating_add(1),
        }
    }

    /// The one of a parameter, of which 0 is read as 1.
    ///
    /// # Errors
    ///
    /// The parameter is a byte, or no `u32`.
    #[allow(clippy::result_unit_err)]
    pub fn from_esc_param(param: &CsiParam) -> Result<OneBased, ()> {
        OneBased::of_param(param, 1)
    }

    /// The same, with 0 read as the greatest number.
    ///
    /// # Errors
    ///
    /// The parameter is a byte, or no `u32`.
    #[allow(clippy::result_unit_err)]
    pub fn from_esc_param_with_big_default(param: &CsiParam) -> Result<OneBased, ()> {
        OneBased::of_param(param, u32::MAX)
    }

    /// The one of a parameter, or 1 if there is none.
    ///
    /// # Errors
    ///
    /// The parameter is a byte, or no `u32`.
    #[allow(clippy::result_unit_err)]
    pub fn from_optional_esc_param(param: Option<&CsiParam>) -> Result<OneBased, ()> {
        param.map_or(Ok(OneBased { value: 1 }), OneBased::from_esc_param)
    }

    /// Its number, counted from 0.
    #[must_use]
    pub fn as_zero_based(self) -> u32 {
        self.value.saturating_sub(1)
    }

    /// Its number, counted from 1.
    #[must_use]
    pub fn as_one_based(self) -> u32 {
        self.value
    }

    fn of_param(param: &CsiParam, of_zero: u32) -> Result<OneBased, ()> {
        let CsiParam::Integer(number) = *param else {
            return Err(());
        };
        let value = u32::try_from(number).map_err(|_| ())?;
        Ok(OneBased {
            value: if value == 0 { of_zero } else { value },
        })
    }
}

impl fmt::Display for OneBased {
    fn fmt(&self, f: &mut fmt::Formatter<'_>) -> fmt::Result {
        self.value.fmt(f)
    }
}
