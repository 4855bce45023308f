// SPDX-License-Identifier: MIT
//! Sets of flags.

/// A set of flags, as bits.
macro_rules! flags {
    (
        $(#[$about:meta])*
        $name:ident {
            $($(#[$doc:meta])* $flag:ident = $bits:expr;)+
        }
    ) => {
        $(#[$about])*
        #[derive(Clone, Copy, Debug, Default, PartialEq, Eq, PartialOrd, Ord, Hash)]
        #[cfg_attr(feature = "serde", derive(serde::Serialize, serde::Deserialize))]
        pub struct $name(u16);

        impl $name {
            $($(#[$doc])* pub const $flag: $name = $name($bits);)+

            /// The set without a flag.
            #[must_use]
            pub const fn empty() -> $name {
                $name(0)
            }

            /// The set of the flags that these bits name. Other bits are dropped.
            #[must_use]
            pub const fn from_bits_truncate(bits: u16) -> $name {
                $name(bits & (0 $(| $bits)+))
            }

            /// The bits of the set.
            #[must_use]
            pub const fn bits(self) -> u16 {
                self.0
            }

            /// Whether it has no flag.
            #[must_use]
            pub const fn is_empty(self) -> bool {
                self.0 == 0
            }

            /// Whether it has each flag of `other`.
            #[must_use]
            pub const fn contains(self, other: $name) -> bool {
                self.0 & other.0 == other.0
            }
        }

        impl core::ops::BitOr for $name {
            type Output = $name;

            fn bitor(self, other: $name) -> $name {
                $name(self.0 | other.0)
            }
        }

        impl core::ops::BitOrAssign for $name {
            fn bitor_assign(&mut self, other: $name) {
                self.0 |= other.0;
            }
        }

        impl core::ops::BitAnd for $name {
            type Output = $name;

            fn bitand(self, other: $name) -> $name {
                $name(self.0 & other.0)
            }
        }
    };
}

pub(crate) use flags;
