// SPDX-License-Identifier: MIT
//! Reports of the mouse.
use super::sequence::Sequence;
use crate::termwiz::input::Modifiers;
use core::fmt;

/// A terminal's report of the mouse.
#[derive(Clone, Copy, Debug, PartialEq, Eq)]
#[cfg_attr(feature = "serde", derive(serde::Serialize, serde::Deserialize))]
pub enum MouseReport {
    /// It is reported with its place in cells.
    SGR1006 {
        /// The column, from 1 on.
        x: u16,
        /// The line, from 1 on.
        y: u16,
        /// The button, and what it did.
        button: MouseButton,
        /// The modifiers that were held down.
        modifiers: Modifiers,
    },
    /// It is reported with its place in pixels. Nothing in the sequence says so, so the parser
    /// never gives this value.
    SGR1016 {
        /// The pixel from the left.
        x_pixels: u16,
        /// The pixel from the top.
        y_pixels: u16,
        /// The button, and what it did.
        button: MouseButton,
        /// The modifiers that were held down.
        modifiers: Modifiers,
    },
}

macro_rules! buttons {
    ($($(#[$doc:meta])* $name:ident = $number:literal, $last:literal;)+) => {
        /// A button of the mouse, and what it did.
        #[derive(Clone, Copy, Debug, PartialEq, Eq, Hash)]
        #[cfg_attr(feature = "serde", derive(serde::Serialize, serde::Deserialize))]
        pub enum MouseButton {
            $($(#[$doc])* $name,)+
        }

        impl MouseButton {
            fn of(number: i64, last: char) -> Option<MouseButton> {
                match (number, last) {
                    $(($number, $last) => Some(MouseButton::$name),)+
                    // The pointer moved where the terminal sends the end of a press.
                    (35, 'm') => Some(MouseButton::None),
                    _ => None,
                }
            }

            fn number(self) -> (u16, char) {
                match self {
                    $(MouseButton::$name => ($number, $last),)+
                }
            }
        }
    };
}

buttons! {
    /// The left one was pressed.
    Button1Press = 0, 'M';
    /// The middle one was pressed.
    Button2Press = 1, 'M';
    /// The right one was pressed.
    Button3Press = 2, 'M';
    /// The wheel was turned up.
    Button4Press = 64, 'M';
    /// The wheel was turned down.
    Button5Press = 65, 'M';
    /// The wheel was turned left.
    Button6Press = 66, 'M';
    /// The wheel was turned right.
    Button7Press = 67, 'M';
    /// The left one was released.
    Button1Release = 0, 'm';
    /// The middle one was released.
    Button2Release = 1, 'm';
    /// The right one was released.
    Button3Release = 2, 'm';
    /// The wheel is no longer turned up.
    Button4Release = 64, 'm';
    /// The wheel is no longer turned down.
    Button5Release = 65, 'm';
    /// The wheel is no longer turned left.
    Button6Release = 66, 'm';
    /// The wheel is no longer turned right.
    Button7Release = 67, 'm';
    /// The pointer moved with the left one pressed.
    Button1Drag = 32, 'M';
    /// The pointer moved with the middle one pressed.
    Button2Drag = 33, 'M';
    /// The pointer moved with the right one pressed.
    Button3Drag = 34, 'M';
    /// The pointer moved with none pressed.
    None = 35, 'M';
}

// The bits of modifiers in the number of a button.
const BITS: [(i64, Modifiers); 3] = [
    (4, Modifiers::SHIFT),
    (8, Modifiers::ALT),
    (16, Modifiers::CTRL),
];

impl MouseReport {
    pub(super) fn of(sequence: &Sequence<'_>) -> Option<MouseReport> {
        if sequence.prefix != Some(b'<') || sequence.intermediate.is_some() {
            return None;
        }
        let [Some(number), Some(x), Some(y)] = sequence.numbers()? else {
            return None;
        };
        let mut modifiers = Modifiers::NONE;
        for (bit, modifier) in BITS {
            if number & bit != 0 {
                modifiers |= modifier;
            }
        }
        Some(MouseReport::SGR1006 {
            x: u16::try_from(x).ok()?,
            y: u16::try_from(y).ok()?,
            button: MouseButton::of(number & !28, sequence.last)?,
            modifiers,
        })
    }
}

// The text after `ESC [`.
impl fmt::Display for MouseReport {
    fn fmt(&self, f: &mut fmt::Formatter<'_>) -> fmt::Result {
        let (x, y, button, modifiers) = match *self {
            MouseReport::SGR1006 {
                x,
                y,
                button,
                modifiers,
            } => (x, y, button, modifiers),
            MouseReport::SGR1016 {
                x_pixels,
                y_pixels,
                button,
                modifiers,
            } => (x_pixels, y_pixels, button, modifiers),
        };
        let (number, last) = button.number();
        let bits = BITS.iter().filter(|it| modifiers.contains(it.1));
        let number = bits.fold(i64::from(number), |number, (bit, _)| number | bit);
        write!(f, "<{number};{x};{y}{last}")
    }
}
