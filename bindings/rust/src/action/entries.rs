// SPDX-License-Identifier: MIT
//! The entries of a control sequence, which need no memory if they are few.
use crate::Entry;
use alloc::boxed::Box;
use alloc::vec::Vec;
use core::fmt;
use core::ops::Deref;

// A colour of the palette, `38;5;n`, has so many.
const FEW: usize = 5;

/// The entries of a control sequence, as a slice. Up to five of them take no memory.
///
/// ```
/// use escape_stream::action::{Action, Parser};
///
/// let found = Parser::new().parse_as_vec(b"\x1b[38;5;7m");
/// if let [Action::CSI(sequence)] = &found[..] {
///     assert_eq!(sequence.params.len(), 5);
///     assert_eq!(sequence.params[4].number(), Some(7));
/// }
/// ```
#[derive(Clone)]
#[cfg_attr(feature = "serde", derive(serde::Serialize, serde::Deserialize))]
#[cfg_attr(feature = "serde", serde(from = "Vec<Entry>", into = "Vec<Entry>"))]
pub struct Entries {
    // All of them, if there are more than a few.
    many: Option<Box<[Entry]>>,
    // Else the first so many of these.
    count: u8,
    few: [Entry; FEW],
}

impl Entries {
    // The first so many of these.
    #[inline(always)]
    pub(super) fn first(count: usize, entries: &[Entry; 256]) -> Entries {
        let is_few = count <= FEW;
        // By reference: so they are copied once, to their place.
        let few: Result<&[Entry; FEW], _> = entries[..FEW].try_into();
        Entries {
            many: if is_few { None } else { many(count, entries) },
            count: count as u8,
            few: *few.unwrap_or(&[Entry::NONE; FEW]),
        }
    }
}

#[inline(never)]
fn many(count: usize, entries: &[Entry; 256]) -> Option<Box<[Entry]>> {
    Some(entries.get(..count).unwrap_or(entries).into())
}

impl From<&[Entry]> for Entries {
    fn from(entries: &[Entry]) -> Entries {
        let mut few = [Entry::NONE; FEW];
        let is_few = entries.len() <= FEW;
        if is_few {
            few[..entries.len()].copy_from_slice(entries);
        }
        Entries {
            many: (!is_few).then(|| entries.into()),
            count: entries.len() as u8,
            few,
        }
    }
}

impl From<Vec<Entry>> for Entries {
    fn from(entries: Vec<Entry>) -> Entries {
        Entries::from(&entries[..])
    }
}

impl From<Entries> for Vec<Entry> {
    fn from(entries: Entries) -> Vec<Entry> {
        entries.to_vec()
    }
}

impl FromIterator<Entry> for Entries {
    fn from_iter<I: IntoIterator<Item = Entry>>(entries: I) -> Entries {
        entries.into_iter().collect::<Vec<_>>().into()
    }
}

impl Deref for Entries {
    type Target = [Entry];

    #[inline]
    fn deref(&self) -> &[Entry] {
        match &self.many {
            None => self.few.get(..usize::from(self.count)).unwrap_or(&self.few),
            Some(entries) => entries,
        }
    }
}

impl<'a> IntoIterator for &'a Entries {
    type Item = &'a Entry;
    type IntoIter = core::slice::Iter<'a, Entry>;

    fn into_iter(self) -> Self::IntoIter {
        self.iter()
    }
}

impl Default for Entries {
    fn default() -> Entries {
        Entries::from(&[][..])
    }
}

impl PartialEq for Entries {
    fn eq(&self, other: &Entries) -> bool {
        self[..] == other[..]
    }
}

impl Eq for Entries {}

impl fmt::Debug for Entries {
    fn fmt(&self, f: &mut fmt::Formatter<'_>) -> fmt::Result {
        self[..].fmt(f)
    }
}
