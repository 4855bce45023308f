// SPDX-License-Identifier: MIT
//! The receiver of the parts of a stream.
use super::{Action, CSI, Entries};
use crate::dcs::{Sixel, SixelData};
use crate::fields::Room;
use crate::{Error, borrowed, ffi};
use alloc::boxed::Box;
use alloc::vec::Vec;

/// The receiver of the parts of a stream: each comes as it costs least if it is to be owned.
pub trait Receiver {
    /// An action.
    fn act(&mut self, action: borrowed::Action<'_>);

    /// The control sequence of an event.
    fn sequence(&mut self, event: &ffi::Event);

    /// A run of characters.
    fn run(&mut self, run: &str);

    /// The command of a text.
    fn command(&mut self, text: &[u8], room: &mut Room) -> Result<(), Error>;

    /// An image. Returns the room of its data, or none if they are owned.
    fn image(&mut self, sixel: Sixel) -> Vec<SixelData>;
}

/// Gives a closure borrowed actions.
pub struct Borrowed<F>(pub F);

impl<F: FnMut(borrowed::Action<'_>)> Receiver for Borrowed<F> {
    #[inline(always)]
    fn act(&mut self, action: borrowed::Action<'_>) {
        (self.0)(action);
    }

    #[inline(always)]
    fn sequence(&mut self, event: &ffi::Event) {
        (self.0)(borrowed::Action::CSI(borrowed::CSI {
            params: event.entries(),
            parameters_truncated: event.has_more,
            control: event.byte as u8,
        }));
    }

    #[inline(always)]
    fn run(&mut self, run: &str) {
        (self.0)(borrowed::Action::PrintString(run));
    }

    #[inline(always)]
    fn command(&mut self, text: &[u8], room: &mut Room) -> Result<(), Error> {
        let command = borrowed::OperatingSystemCommand::read(text, room)?;
        (self.0)(borrowed::Action::OperatingSystemCommand(&command));
        Ok(())
    }

    fn image(&mut self, sixel: Sixel) -> Vec<SixelData> {
        (self.0)(borrowed::Action::Sixel(&sixel));
        sixel.data
    }
}

/// Gives a closure owned ones.
pub struct Owned<F>(pub F);

impl<F: FnMut(Action)> Receiver for Owned<F> {
    #[inline(always)]
    fn act(&mut self, action: borrowed::Action<'_>) {
        (self.0)(action.into_owned());
    }

    // Its entries are copied at once, as many as are few.
    #[inline(always)]
    fn sequence(&mut self, event: &ffi::Event) {
        (self.0)(Action::CSI(CSI {
            params: Entries::first(event.count, &event.entries),
            parameters_truncated: event.has_more,
            control: event.byte as u8,
        }));
    }

    // As `into_owned`, with a call for each form.
    #[inline(always)]
    fn run(&mut self, run: &str) {
        match borrowed::single(run) {
            Some(c) => (self.0)(Action::Print(c)),
            None => (self.0)(Action::PrintString(run.into())),
        }
    }

    #[inline(always)]
    fn command(&mut self, text: &[u8], room: &mut Room) -> Result<(), Error> {
        let command = borrowed::OperatingSystemCommand::read_owned(text, room)?;
        (self.0)(Action::OperatingSystemCommand(command));
        Ok(())
    }

    fn image(&mut self, sixel: Sixel) -> Vec<SixelData> {
        (self.0)(Action::Sixel(Box::new(sixel)));
        Vec::new()
    }
}
