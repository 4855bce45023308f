// SPDX-License-Identifier: MIT
//! The parameters of a sequence, as the crate `vte` hands them out.
use core::fmt;

const MOST: usize = 32;

/// The parameters of a control sequence, or of a device control string: the first 32 numbers,
/// subparameters counted too.
///
/// A number that is left out is 0, and a number above 65,535 is 65,535. So there is at least one.
#[derive(Clone, Default)]
pub struct Params {
    numbers: [u16; MOST],
    len: usize,
    // Bit i says that the number after the number i, if there is one, is a subparameter beside it.
    joined: u32,
}

impl Params {
    /// How many numbers there are, subparameters counted too.
    #[inline]
    pub fn len(&self) -> usize {
        self.len
    }

    /// Whether there are none.
    #[inline]
    pub fn is_empty(&self) -> bool {
        self.len == 0
    }

    /// The parameters in order, each a slice of the numbers between its colons.
    #[inline]
    pub fn iter(&self) -> ParamsIter<'_> {
        ParamsIter {
            params: self,
            at: 0,
        }
    }

    pub(crate) fn clear(&mut self) {
        self.len = 0;
        self.joined = 0;
    }

    // Appends a number, if there is room, and says whether there was. The next number is joined to
    // it if a colon stands between them.
    #[inline]
    pub(crate) fn push(&mut self, number: u16, is_joined: bool) -> bool {
        let Some(place) = self.numbers.get_mut(self.len) else {
            return false;
        };
        *place = number;
        self.joined |= u32::from(is_joined) << self.len;
        self.len += 1;
        true
    }
}

impl fmt::Debug for Params {
    fn fmt(&self, f: &mut fmt::Formatter<'_>) -> fmt::Result {
        f.write_str("[")?;
        for (i, number) in self.numbers[..self.len].iter().enumerate() {
            if i > 0 {
                let is_joined = (self.joined >> (i - 1)) & 1 == 1;
                f.write_str(if is_joined { ":" } else { ";" })?;
            }
            number.fmt(f)?;
        }
        f.write_str("]")
    }
}

impl<'a> IntoIterator for &'a Params {
    type Item = &'a [u16];
    type IntoIter = ParamsIter<'a>;

    fn into_iter(self) -> ParamsIter<'a> {
        self.iter()
    }
}

/// The parameters of a [`Params`], one after another.
#[derive(Clone, Debug)]
pub struct ParamsIter<'a> {
    params: &'a Params,
    at: usize,
}

impl<'a> Iterator for ParamsIter<'a> {
    type Item = &'a [u16];

    #[inline]
    fn next(&mut self) -> Option<&'a [u16]> {
        let rest = &self.params.numbers[self.at..self.params.len];
        if rest.is_empty() {
            return None;
        }
        let colons = (self.params.joined >> self.at).trailing_ones() as usize;
        let length = rest.len().min(colons + 1);
        self.at += length;
        Some(&rest[..length])
    }

    fn size_hint(&self) -> (usize, Option<usize>) {
        let numbers = self.params.len - self.at;
        (numbers.min(1), Some(numbers))
    }
}
