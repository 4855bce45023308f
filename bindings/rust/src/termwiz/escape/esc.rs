// SPDX-License-Identifier: MIT
//! Escape sequences.
use core::fmt::{self, Write};

/// An escape sequence.
#[derive(Clone, Copy, Debug, PartialEq, Eq)]
#[cfg_attr(feature = "serde", derive(serde::Serialize, serde::Deserialize))]
pub enum Esc {
    /// It has no name here.
    Unspecified {
        /// The intermediate, if there is exactly one.
        intermediate: Option<u8>,
        /// The final byte.
        control: u8,
    },
    /// It has a name.
    Code(EscCode),
}

// The bytes after ESC as a number.
const fn code(bytes: &[u8]) -> u16 {
    match *bytes {
        [intermediate, last] => (intermediate as u16) << 8 | last as u16,
        [last, ..] => last as u16,
        [] => 0,
    }
}

macro_rules! codes {
    ($($(#[$doc:meta])* $name:ident = $bytes:literal,)+) => {
        /// The escape sequences with names. The number of one is its final byte, and 256 times its
        /// intermediate more.
        #[derive(Clone, Copy, Debug, PartialEq, Eq, Hash)]
        #[cfg_attr(feature = "serde", derive(serde::Serialize, serde::Deserialize))]
        #[repr(u16)]
        pub enum EscCode {
            $($(#[$doc])* $name = code($bytes),)+
        }

        impl EscCode {
            fn of(number: u16) -> Option<EscCode> {
                $(if number == EscCode::$name as u16 {
                    return Some(EscCode::$name);
                })+
                None
            }
        }
    };
}

codes! {
    /// RIS resets the terminal.
    FullReset = b"c",
    /// IND moves the cursor down, and scrolls in the last line.
    Index = b"D",
    /// NEL moves the cursor to the start of the next line.
    NextLine = b"E",
    /// HP's terminals move the cursor to the lower left.
    CursorPositionLowerLeft = b"F",
    /// HTS sets a tab stop.
    HorizontalTabSet = b"H",
    /// RI moves the cursor up, and scrolls in the first line.
    ReverseIndex = b"M",
    /// SS2 takes the next character of G2.
    SingleShiftG2 = b"N",
    /// SS3 takes the next character of G3.
    SingleShiftG3 = b"O",
    /// SPA begins a guarded area.
    StartOfGuardedArea = b"V",
    /// EPA ends it.
    EndOfGuardedArea = b"W",
    /// SOS begins a string, so the parser never gives this value.
    StartOfString = b"X",
    /// DECID asks the terminal what it is.
    ReturnTerminalId = b"Z",
    /// ST ends a string.
    StringTerminator = b"\\",
    /// PM begins a string, so the parser never gives this value.
    PrivacyMessage = b"^",
    /// APC begins a string, so the parser never gives this value.
    ApplicationProgramCommand = b"_",
    /// A title of tmux and screen begins, which is printed text up to ST.
    TmuxTitle = b"k",
    /// DECBI moves the cursor back, and scrolls in the first column.
    DecBackIndex = b"6",
    /// DECSC saves the cursor.
    DecSaveCursorPosition = b"7",
    /// DECRC restores it.
    DecRestoreCursorPosition = b"8",
    /// DECKPAM has the keypad send sequences.
    DecApplicationKeyPad = b"=",
    /// DECKPNM has the keypad send its characters.
    DecNormalKeyPad = b">",
    /// SCS makes DEC's line drawing G0.
    DecLineDrawingG0 = b"(0",
    /// SCS makes the British set G0.
    UkCharacterSetG0 = b"(A",
    /// SCS makes ASCII G0.
    AsciiCharacterSetG0 = b"(B",
    /// SCS makes DEC's line drawing G1.
    DecLineDrawingG1 = b")0",
    /// SCS makes the British set G1.
    UkCharacterSetG1 = b")A",
    /// SCS makes ASCII G1.
    AsciiCharacterSetG1 = b")B",
    /// DECALN fills the screen with `E`.
    DecScreenAlignmentDisplay = b"#8",
    /// DECDHL makes the line the upper half of a line of double height.
    DecDoubleHeightTopHalfLine = b"#3",
    /// DECDHL makes the line the lower half of one.
    DecDoubleHeightBottomHalfLine = b"#4",
    /// DECSWL makes the line one of single width.
    DecSingleWidthLine = b"#5",
    /// DECDWL makes it one of double width.
    DecDoubleWidthLine = b"#6",
    /// The key up was pressed. The parser gives SS3 and `A`.
    ApplicationModeArrowUpPress = b"OA",
    /// The key down was pressed. The parser gives SS3 and `B`.
    ApplicationModeArrowDownPress = b"OB",
    /// The key right was pressed. The parser gives SS3 and `C`.
    ApplicationModeArrowRightPress = b"OC",
    /// The key left was pressed. The parser gives SS3 and `D`.
    ApplicationModeArrowLeftPress = b"OD",
    /// The key Home was pressed. The parser gives SS3 and `H`.
    ApplicationModeHomePress = b"OH",
    /// The key End was pressed. The parser gives SS3 and `F`.
    ApplicationModeEndPress = b"OF",
    /// The key F1 was pressed. The parser gives SS3 and `P`.
    F1Press = b"OP",
    /// The key F2 was pressed. The parser gives SS3 and `Q`.
    F2Press = b"OQ",
    /// The key F3 was pressed. The parser gives SS3 and `R`.
    F3Press = b"OR",
    /// The key F4 was pressed. The parser gives SS3 and `S`.
    F4Press = b"OS",
}

impl Esc {
    /// The escape sequence of these bytes.
    #[must_use]
    pub fn parse(intermediate: Option<u8>, control: u8) -> Esc {
        let number = intermediate.map_or(0, |it| u16::from(it) << 8) | u16::from(control);
        match EscCode::of(number) {
            Some(code) => Esc::Code(code),
            None => Esc::Unspecified {
                intermediate,
                control,
            },
        }
    }
}

impl fmt::Display for Esc {
    fn fmt(&self, f: &mut fmt::Formatter<'_>) -> fmt::Result {
        let (intermediate, control) = match *self {
            Esc::Unspecified {
                intermediate,
                control,
            } => (intermediate, control),
            Esc::Code(code) => {
                let [first, last] = (code as u16).to_be_bytes();
                ((first != 0).then_some(first), last)
            }
        };
        f.write_char('\x1b')?;
        if let Some(byte) = intermediate {
            f.write_char(byte.into())?;
        }
        f.write_char(control.into())
    }
}
