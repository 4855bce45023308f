// SPDX-License-Identifier: MIT
//! The two macros of the crate `k9` that tests of termwiz and vtparse call.

#[macro_export]
macro_rules! assert_equal {
    ($($it:tt)*) => { ::core::assert_eq!($($it)*) };
}

#[macro_export]
macro_rules! snapshot {
    ($value:expr, $text:expr $(,)?) => {
        ::core::assert_eq!(format!("{:#?}", $value).trim(), $text.trim())
    };
}
