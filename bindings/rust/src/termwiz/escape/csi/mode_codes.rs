// SPDX-License-Identifier: MIT
//! The modes with names.
use crate::termwiz::choices::choices;

choices! {
    /// The private modes with names.
    DecPrivateModeCode {
        /// DECCKM has the keys of the cursor send what applications expect.
        ApplicationCursorKeys = 1,
        /// DECANM leaves the mode of a VT52.
        DecAnsiMode = 2,
        /// DECCOLM makes lines of 132 columns.
        Select132Columns = 3,
        /// DECSCLM scrolls smoothly.
        SmoothScroll = 4,
        /// DECSCNM shows the screen in reverse.
        ReverseVideo = 5,
        /// DECOM counts lines from the first margin.
        OriginMode = 6,
        /// DECAWM goes on in the next line.
        AutoWrap = 7,
        /// DECARM repeats keys.
        AutoRepeat = 8,
        /// The cursor blinks.
        StartBlinkingCursor = 12,
        /// DECTCEM shows the cursor.
        ShowCursor = 25,
        /// The cursor goes back over the start of a line.
        ReverseWraparound = 45,
        /// DECLRMM lets margins at the left and right be set.
        LeftRightMarginMode = 69,
        /// DECSDM shows images at the top.
        SixelDisplayMode = 80,
        /// Buttons of the mouse are reported.
        MouseTracking = 1000,
        /// Buttons are reported with a highlight.
        HighlightMouseTracking = 1001,
        /// Movements with a button pressed are reported.
        ButtonEventMouse = 1002,
        /// All movements are reported.
        AnyEventMouse = 1003,
        /// Focus is reported.
        FocusTracking = 1004,
        /// The mouse is reported in UTF-8.
        Utf8Mouse = 1005,
        /// The mouse is reported by SGR.
        SGRMouse = 1006,
        /// The mouse is reported by SGR in pixels.
        SGRPixelsMouse = 1016,
        /// Meta sends ESC.
        XTermMetaSendsEscape = 1036,
        /// Alt sends ESC.
        XTermAltSendsEscape = 1039,
        /// The cursor is saved.
        SaveCursor = 1048,
        /// The cursor is saved, and the alternate screen shown and erased.
        ClearAndEnableAlternateScreen = 1049,
        /// The alternate screen is shown.
        EnableAlternateScreen = 47,
        /// The alternate screen is shown, and erased when it is left.
        OptEnableAlternateScreen = 1047,
        /// Pasted text comes between brackets.
        BracketedPaste = 2004,
        /// Characters are joined as Unicode says.
        GraphemeClustering = 2027,
        /// Each image has a palette of its own.
        UsePrivateColorRegistersForEachGraphic = 1070,
        /// Written text is shown at once when the mode ends.
        SynchronizedOutput = 2026,
        /// The key Escape sends a sequence, in mintty.
        MinTTYApplicationEscapeKeyMode = 7727,
        /// The cursor is right of an image.
        SixelScrollsRight = 8452,
        /// Keys are reported as Windows has them.
        Win32InputMode = 9001,
    }
}

choices! {
    /// The modes of ECMA-48 with names.
    TerminalModeCode {
        /// KAM locks the keyboard.
        KeyboardAction = 2,
        /// IRM inserts characters.
        Insert = 4,
        /// BDSM leaves the order of text to the terminal.
        BiDirectionalSupportMode = 8,
        /// SRM ends the echo of the terminal.
        SendReceive = 12,
        /// LNM has a line feed return to the first column.
        AutomaticNewline = 20,
        /// The cursor is shown.
        ShowCursor = 25,
    }
}
