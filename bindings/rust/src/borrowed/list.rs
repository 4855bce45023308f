// SPDX-License-Identifier: MIT
//! Lists with values that are read from fields.
use crate::fields::{Fields, name};
use crate::osc::{ChangeColorPair, ColorOrQuery};
use core::fmt;
use core::iter::FusedIterator;

/// Values of a command one after another, which are made as they are asked for: `iter` has them.
#[derive(Clone, Copy)]
pub struct List<'a, T>(Kept<'a, T>);

#[derive(Clone, Copy)]
enum Kept<'a, T> {
    One(T),
    Fields(Fields<'a>),
}

impl<'a, T> List<'a, T> {
    pub(crate) fn none() -> List<'a, T> {
        List(Kept::Fields(Fields::NONE))
    }

    pub(crate) fn one(value: T) -> List<'a, T> {
        List(Kept::One(value))
    }
}

impl<'a, T: Item<'a>> List<'a, T> {
    // The values of all fields that are left. Each is one of a value.
    pub(crate) fn of(fields: &mut Fields<'a>) -> Option<List<'a, T>> {
        let list = List(Kept::Fields(*fields));
        while !fields.is_empty() {
            T::of(fields)?;
        }
        Some(list)
    }

    /// The values.
    #[must_use]
    pub fn iter(&self) -> ListIter<'a, T> {
        ListIter(match self.0 {
            Kept::One(value) => Left::One(Some(value)),
            Kept::Fields(fields) => Left::Fields(fields),
        })
    }

    /// Whether there are none.
    #[must_use]
    pub fn is_empty(&self) -> bool {
        self.iter().next().is_none()
    }
}

impl<'a> List<'a, (&'a str, &'a str)> {
    /// The value of a key.
    #[must_use]
    pub fn get(&self, key: &str) -> Option<&'a str> {
        let found = self.iter().find(|it| it.0 == key)?;
        Some(found.1)
    }
}

impl<'a, T: Item<'a>> IntoIterator for List<'a, T> {
    type Item = T;
    type IntoIter = ListIter<'a, T>;

    fn into_iter(self) -> ListIter<'a, T> {
        self.iter()
    }
}

impl<'a, T: Item<'a>> IntoIterator for &List<'a, T> {
    type Item = T;
    type IntoIter = ListIter<'a, T>;

    fn into_iter(self) -> ListIter<'a, T> {
        self.iter()
    }
}

impl<'a, T: Item<'a> + PartialEq> PartialEq for List<'a, T> {
    fn eq(&self, other: &List<'a, T>) -> bool {
        self.iter().eq(other.iter())
    }
}

impl<'a, T: Item<'a> + Eq> Eq for List<'a, T> {}

impl<'a, T: Item<'a> + fmt::Debug> fmt::Debug for List<'a, T> {
    fn fmt(&self, f: &mut fmt::Formatter<'_>) -> fmt::Result {
        T::show(self.iter(), f)
    }
}

/// The values of a [`List`], one after another.
#[derive(Clone)]
pub struct ListIter<'a, T>(Left<'a, T>);

#[derive(Clone)]
enum Left<'a, T> {
    One(Option<T>),
    Fields(Fields<'a>),
}

impl<'a, T: Item<'a> + fmt::Debug> fmt::Debug for ListIter<'a, T> {
    fn fmt(&self, f: &mut fmt::Formatter<'_>) -> fmt::Result {
        f.write_str("ListIter ")?;
        T::show(self.clone(), f)
    }
}

impl<'a, T: Item<'a>> Iterator for ListIter<'a, T> {
    type Item = T;

    fn next(&mut self) -> Option<T> {
        match &mut self.0 {
            Left::One(value) => value.take(),
            Left::Fields(fields) => T::of(fields),
        }
    }
}

impl<'a, T: Item<'a>> FusedIterator for ListIter<'a, T> {}

/// A value that one field or several make.
pub trait Item<'a>: Copy {
    /// The next one. None if none is left.
    fn of(fields: &mut Fields<'a>) -> Option<Self>;

    /// Shows values as the owned list is shown.
    fn show(values: ListIter<'a, Self>, f: &mut fmt::Formatter<'_>) -> fmt::Result
    where
        Self: fmt::Debug,
    {
        f.debug_list().entries(values).finish()
    }
}

impl<'a> Item<'a> for &'a [u8] {
    fn of(fields: &mut Fields<'a>) -> Option<&'a [u8]> {
        fields.bytes(name::PART)
    }
}

// A part of a command, or a name of a query.
impl<'a> Item<'a> for &'a str {
    fn of(fields: &mut Fields<'a>) -> Option<&'a str> {
        let is_name = fields.has(name::NAME);
        fields.text(if is_name { name::NAME } else { name::PART })
    }
}

// A key and its value, which are shown as those of a map.
impl<'a> Item<'a> for (&'a str, &'a str) {
    fn of(fields: &mut Fields<'a>) -> Option<(&'a str, &'a str)> {
        Some((fields.text(name::KEY)?, fields.text(name::VALUE)?))
    }

    fn show(values: ListIter<'a, Self>, f: &mut fmt::Formatter<'_>) -> fmt::Result {
        f.debug_map().entries(values).finish()
    }
}

impl Item<'_> for u8 {
    fn of(fields: &mut Fields<'_>) -> Option<u8> {
        fields.number(name::PALETTE_INDEX)
    }
}

impl Item<'_> for ChangeColorPair {
    fn of(fields: &mut Fields<'_>) -> Option<ChangeColorPair> {
        ChangeColorPair::of(fields)
    }
}

impl Item<'_> for ColorOrQuery {
    fn of(fields: &mut Fields<'_>) -> Option<ColorOrQuery> {
        ColorOrQuery::of(fields)
    }
}
