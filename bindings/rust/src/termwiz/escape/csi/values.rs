// SPDX-License-Identifier: MIT
//! The values of a control sequence, one after another.
use super::mode::Change;
use super::sequence::{CsiParam, Sequence, is_parameter};
use super::{
    CSI, Cursor, Device, Edit, Keyboard, Mode, MouseReport, Unspecified, Window, path, sgr,
};
use alloc::boxed::Box;
use alloc::vec::Vec;
use core::iter::FusedIterator;

/// The values of a control sequence: the iterator of [`CSI::parse`].
#[derive(Clone)]
pub struct Values<'a> {
    // The commonest has a place of its own.
    renditions: Option<&'a [CsiParam]>,
    others: Others<'a>,
    is_truncated: bool,
    control: char,
}

// The values still to be read, but for renditions.
#[derive(Clone)]
enum Others<'a> {
    Nothing,
    Whole(&'a [CsiParam], Option<Sequence<'a>>),
    Modes(Change, &'a [CsiParam]),
}

impl<'a> Others<'a> {
    fn of(params: &'a [CsiParam], is_truncated: bool, control: char) -> Others<'a> {
        // An intermediate may be among entries that are not kept.
        if is_truncated {
            return Others::Whole(params, None);
        }
        let sequence = Sequence::of(params, control);
        match sequence.and_then(|it| Some((Change::of(&it)?, it.params))) {
            Some((change, modes)) => Others::Modes(change, modes),
            None => Others::Whole(params, sequence),
        }
    }
}

impl<'a> Values<'a> {
    #[inline]
    pub(super) fn of(params: &'a [CsiParam], is_truncated: bool, control: char) -> Values<'a> {
        let are_renditions = control == 'm' && params.iter().all(is_parameter);
        Values {
            renditions: are_renditions.then_some(params),
            others: if are_renditions {
                Others::Nothing
            } else {
                Others::of(params, is_truncated, control)
            },
            is_truncated,
            control,
        }
    }

    // The sequence of these entries as it came.
    fn unspecified(&self, params: Vec<CsiParam>) -> CSI {
        CSI::Unspecified(Box::new(Unspecified {
            params,
            parameters_truncated: self.is_truncated,
            control: self.control,
        }))
    }

    // The next rendition. One that is not known, or is cut off, comes with all that follows it.
    fn rendition(&mut self, params: &'a [CsiParam]) -> CSI {
        match sgr::first_of(params) {
            Some((_, None)) if self.is_truncated => self.unspecified(params.into()),
            Some((rendition, rest)) => {
                self.renditions = rest;
                CSI::Sgr(rendition)
            }
            None => self.unspecified(params.into()),
        }
    }

    // The next value that is no rendition.
    fn other(&mut self) -> Option<CSI> {
        match core::mem::replace(&mut self.others, Others::Nothing) {
            Others::Nothing => None,
            Others::Modes(change, params) => Some(self.mode(change, params)),
            Others::Whole(params, sequence) => Some(
                sequence
                    .and_then(|it| single(&it))
                    .unwrap_or_else(|| self.unspecified(params.into())),
            ),
        }
    }

    // The next mode.
    fn mode(&mut self, change: Change, params: &'a [CsiParam]) -> CSI {
        let (first, rest) = sgr::split(params);
        self.others = rest.map_or(Others::Nothing, |rest| Others::Modes(change, rest));
        match change.mode(first) {
            Some(mode) => CSI::Mode(mode),
            None => self.unspecified(change.prefix().iter().chain(first).copied().collect()),
        }
    }
}

impl Iterator for Values<'_> {
    type Item = CSI;

    #[inline]
    fn next(&mut self) -> Option<CSI> {
        match self.renditions.take() {
            Some(params) => Some(self.rendition(params)),
            None => self.other(),
        }
    }
}

impl FusedIterator for Values<'_> {}

// The value of a sequence that has one.
fn single(sequence: &Sequence<'_>) -> Option<CSI> {
    if let Some(it) = Cursor::of(sequence) {
        return Some(CSI::Cursor(it));
    }
    if let Some(it) = Edit::of(sequence) {
        return Some(CSI::Edit(it));
    }
    if let Some(it) = Mode::of(sequence) {
        return Some(CSI::Mode(it));
    }
    if let Some(it) = MouseReport::of(sequence) {
        return Some(CSI::Mouse(it));
    }
    if let Some(it) = Keyboard::of(sequence) {
        return Some(CSI::Keyboard(it));
    }
    if let Some(it) = Device::of(sequence) {
        return Some(CSI::Device(Box::new(it)));
    }
    if let Some((path, effect)) = path::character_path(sequence) {
        return Some(CSI::SelectCharacterPath(path, effect));
    }
    Window::of(sequence).map(|it| CSI::Window(Box::new(it)))
}
