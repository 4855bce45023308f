// SPDX-License-Identifier: MIT
//! Constants that count up.

/// Constants with the numbers from this one on.
macro_rules! numbered {
    ($number:expr;) => {};
    ($number:expr; $first:ident $($rest:ident)*) => {
        pub const $first: u32 = $number;
        $crate::numbered!($number + 1; $($rest)*);
    };
}

pub(crate) use numbered;
