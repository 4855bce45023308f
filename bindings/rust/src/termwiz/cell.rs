// SPDX-License-Identifier: MIT
//! How characters are shown.
use super::choices::choices;

choices! {
    /// How strongly characters are shown.
    Intensity {
        /// They are neither bold nor faint.
        Normal = 0,
        /// They are bold.
        Bold = 1,
        /// They are faint.
        Half = 2,
    }
}

choices! {
    /// The line below characters. The numbers are those after `4:`.
    Underline {
        /// There is none.
        None = 0,
        /// There is one line.
        Single = 1,
        /// There are two.
        Double = 2,
        /// The line is curly.
        Curly = 3,
        /// It is dotted.
        Dotted = 4,
        /// It is dashed.
        Dashed = 5,
    }
}

choices! {
    /// Whether characters blink.
    Blink {
        /// They do not.
        None = 0,
        /// They blink less than 150 times a minute.
        Slow = 1,
        /// They blink more often.
        Rapid = 2,
    }
}

choices! {
    /// Where characters stand in their line.
    VerticalAlign {
        /// They stand on the line.
        BaseLine = 0,
        /// They are raised.
        SuperScript = 1,
        /// They are lowered.
        SubScript = 2,
    }
}
