// SPDX-License-Identifier: MIT
//! Keys that are held down beside a key or a button.
use super::flags::flags;

flags! {
    /// The modifiers that are held down.
    Modifiers {
        /// None is.
        NONE = 0;
        /// Shift is.
        SHIFT = 1 << 1;
        /// Alt is.
        ALT = 1 << 2;
        /// Control is.
        CTRL = 1 << 3;
        /// Super is.
        SUPER = 1 << 4;
    }
}
