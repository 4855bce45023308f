// SPDX-License-Identifier: MIT
//! Choices of which each has a number.

/// An enum whose values have numbers, and the value of a number.
macro_rules! choices {
    (
        $(#[$about:meta])*
        $name:ident {
            $($(#[$doc:meta])* $value:ident = $number:literal,)+
        }
    ) => {
        $(#[$about])*
        #[derive(Clone, Copy, Debug, PartialEq, Eq, Hash)]
        #[cfg_attr(feature = "serde", derive(serde::Serialize, serde::Deserialize))]
        pub enum $name {
            $($(#[$doc])* $value = $number,)+
        }

        impl $name {
            // The value of a number.
            #[allow(dead_code)]
            pub(crate) fn of(number: i64) -> Option<$name> {
                match number {
                    $($number => Some($name::$value),)+
                    _ => None,
                }
            }

            // The number of the value.
            #[allow(dead_code)]
            pub(crate) fn number(self) -> u32 {
                self as u32
            }
        }
    };
}

pub(crate) use choices;
