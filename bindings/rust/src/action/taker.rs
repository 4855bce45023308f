// SPDX-License-Identifier: MIT
//! The maker of actions from events.
use super::device_string::DeviceString;
use super::receiver::Receiver;
use super::{ControlCode, Esc};
use crate::borrowed::{Action, CSI, KittyImage};
use crate::fields::Room;
use crate::{Error, Event};

/// The state between events: an unfinished device control string, and room for the output of the
/// library's calls.
#[derive(Clone)]
pub struct Taker {
    pub device: DeviceString,
    limit: usize,
    pub room: Room,
}

impl Taker {
    /// At the beginning of a stream, with a limit of the data of device control strings.
    pub fn new(limit: usize) -> Taker {
        Taker {
            device: DeviceString::default(),
            limit,
            room: Room::default(),
        }
    }

    /// Gives the actions of an event.
    #[inline(always)]
    pub fn take(&mut self, event: Event<'_>, to: &mut impl Receiver) -> Result<(), Error> {
        to.act(match event {
            Event::Text(run) => Action::PrintString(run),
            Event::Csi {
                entries,
                has_more,
                byte,
            } => Action::CSI(CSI {
                params: entries,
                parameters_truncated: has_more,
                control: byte,
            }),
            Event::Control(byte) => match ControlCode::from_byte(byte) {
                Some(code) => Action::Control(code),
                None => return Ok(()),
            },
            Event::Character(c) => Action::Print(c),
            Event::Escape {
                intermediates,
                byte,
                ..
            } => Action::Esc(Esc::of(intermediates, byte)),
            other => return self.take_string(other, to),
        });
        Ok(())
    }

    // The same of what belongs to a string.
    #[inline(never)]
    fn take_string(&mut self, event: Event<'_>, to: &mut impl Receiver) -> Result<(), Error> {
        match event {
            Event::Osc(text) => to.command(text, &mut self.room)?,
            Event::Apc(text) => {
                if let Some(image) = KittyImage::read(text, &mut self.room)? {
                    to.act(Action::KittyImage(&image));
                }
            }
            Event::Dcs { .. } => self.device.begin(event, to),
            Event::Data(bytes) => self.device.push(bytes, self.limit, to)?,
            Event::DcsEnd => return self.device.end(&mut self.room, to),
            _ => {}
        }
        Ok(())
    }
}
