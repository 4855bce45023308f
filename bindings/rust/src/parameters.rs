// SPDX-License-Identifier: MIT
//! The parameters of a control sequence, by its entries, and the parts of strings.
use crate::Entry;

/// The private prefix, the parameters and the intermediates of a control sequence, by its entries.
///
/// ```
/// use escape_stream::{Event, Parameters, Parser};
///
/// Parser::new().advance(b"\x1b[?4:3;;7$h", |event| {
///     if let Event::Csi { entries, .. } = event {
///         let parameters = Parameters::of(entries);
///         assert_eq!(parameters.private_prefix(), Some(b'?'));
///         assert_eq!([0, 1, 2, 3].map(|i| parameters.number(i, 1)), [4, 1, 7, 1]);
///         let first = parameters.iter().next().unwrap();
///         assert_eq!(first.collect::<Vec<_>>(), [Some(4), Some(3)]);
///         assert_eq!(parameters.intermediates().collect::<Vec<_>>(), b"$");
///     }
/// })?;
/// # Ok::<(), escape_stream::Error>(())
/// ```
#[derive(Clone, Copy, Debug, PartialEq)]
pub struct Parameters<'a> {
    entries: &'a [Entry],
}

impl<'a> Parameters<'a> {
    /// Those of a control sequence with these entries.
    pub fn of(entries: &'a [Entry]) -> Parameters<'a> {
        Parameters { entries }
    }

    /// The private prefix, one of `<` `=` `>` `?`.
    pub fn private_prefix(self) -> Option<u8> {
        self.marks().find(|byte| matches!(byte, b'<'..=b'?'))
    }

    /// The intermediates, each a space up to `/`.
    pub fn intermediates(self) -> impl Iterator<Item = u8> + 'a {
        self.marks().filter(|byte| matches!(byte, b' '..=b'/'))
    }

    /// The parameters, which `;` separates: of each the numbers that `:` separates, `None` if
    /// one is left out. A sequence with nothing in the place of its parameters has none.
    pub fn iter(self) -> impl Iterator<Item = impl Iterator<Item = Option<i64>> + 'a> + 'a {
        let has_some = self
            .entries
            .iter()
            .any(|it| it.number().is_some() || is(it, b';') || is(it, b':'));
        let parts = self.entries.split(|it| is(it, b';'));
        parts
            .take(if has_some { usize::MAX } else { 0 })
            .map(|part| {
                part.split(|it| is(it, b':'))
                    .map(|entries| entries.iter().find_map(|it| it.number()))
            })
    }

    /// The parameter of this index, counted from 0, or the default if it is left out; of one
    /// with colons its first number.
    pub fn number(self, index: usize, default: i64) -> i64 {
        let parameter = self.iter().nth(index);
        parameter
            .and_then(|mut numbers| numbers.next().flatten())
            .unwrap_or(default)
    }

    // The bytes that separate no parameters.
    fn marks(self) -> impl Iterator<Item = u8> + 'a {
        let bytes = self.entries.iter().filter_map(|it| it.byte());
        bytes.filter(|byte| !matches!(byte, b';' | b':'))
    }
}

fn is(entry: &Entry, separator: u8) -> bool {
    entry.byte() == Some(separator)
}

/// The parameters of a device control string, by the bytes that write them: `None` for one that is
/// left out. A number is held at the greatest `i64`.
///
/// ```
/// let numbers = escape_stream::dcs_numbers(b"0;;12");
/// assert_eq!(numbers.collect::<Vec<_>>(), [Some(0), None, Some(12)]);
/// ```
pub fn dcs_numbers(parameters: &[u8]) -> impl Iterator<Item = Option<i64>> + '_ {
    let parts = parameters.split(|byte| *byte == b';');
    let count = if parameters.is_empty() { 0 } else { usize::MAX };
    parts
        .take(count)
        .map(|digits| (!digits.is_empty()).then(|| digits.iter().fold(0, with_digit)))
}

fn with_digit(number: i64, digit: &u8) -> i64 {
    number
        .saturating_mul(10)
        .saturating_add(digit.wrapping_sub(b'0').into())
}

/// The parts of the text of an operating system command, which `;` separates. There is at least
/// one.
///
/// ```
/// let parts = escape_stream::osc_parts(b"8;;http://e.com");
/// assert_eq!(parts.collect::<Vec<_>>(), [&b"8"[..], b"", b"http://e.com"]);
/// ```
pub fn osc_parts(text: &[u8]) -> impl Iterator<Item = &[u8]> + '_ {
    text.split(|byte| *byte == b';')
}

/// The number of an operating system command with this text: its first part, if that is digits
/// and the number is an `u32`.
///
/// ```
/// assert_eq!(escape_stream::osc_number(b"52;c;?"), Some(52));
/// assert_eq!(escape_stream::osc_number(b"L;icon"), None);
/// ```
pub fn osc_number(text: &[u8]) -> Option<u32> {
    let digits = osc_parts(text).next()?;
    let of_digits = |number: u32, digit: &u8| {
        let value = digit.is_ascii_digit().then(|| u32::from(digit - b'0'))?;
        number.checked_mul(10)?.checked_add(value)
    };
    (!digits.is_empty()).then(|| digits.iter().try_fold(0, of_digits))?
}

/// The value of a key in the text of a prompt's mark, `133;..`, if it is given. So keys can be read
/// that a command's value has no place for, as `err` and kitty's `cmdline_url`. The key `""` is the
/// part without `=`, the status of `133;D;1`, which `133;D` has not; a `CommandStatus` has 0 there.
/// The later one of two parts with one key counts.
///
/// ```
/// use escape_stream::prompt_value;
///
/// let value = prompt_value(b"133;C;cmdline_url=ls%20-l", "cmdline_url");
/// assert_eq!(value, Some(&b"ls%20-l"[..]));
/// assert_eq!(prompt_value(b"133;D;1", ""), Some(&b"1"[..]));
/// assert_eq!(prompt_value(b"133;D", ""), None);
/// ```
pub fn prompt_value<'a>(text: &'a [u8], key: &str) -> Option<&'a [u8]> {
    let value = |part: &'a [u8]| match part.iter().position(|byte| *byte == b'=') {
        Some(at) => (!key.is_empty() && part[..at] == *key.as_bytes()).then(|| &part[at + 1..]),
        None => (key.is_empty() && !part.is_empty()).then_some(part),
    };
    osc_parts(text).skip(2).filter_map(value).last()
}
