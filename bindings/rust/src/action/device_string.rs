// SPDX-License-Identifier: MIT
//! A device control string on its way.
use super::receiver::Receiver;
use crate::borrowed::{Action, DeviceControlMode, EnterDeviceControlMode, ShortDeviceControl};
use crate::dcs::{read_sixel, xt_get_tcap_in};
use crate::fields::Room;
use crate::{Error, Event, dcs_numbers};
use alloc::vec::Vec;

// Room for so many bytes of data is kept from one string to the next.
const KEPT_ROOM: usize = 1 << 16;

/// The device control string that is unfinished, with the numbers of its header and the data that
/// are kept of it.
#[derive(Clone, Default)]
pub struct DeviceString {
    kind: Kind,
    params: Vec<i64>,
    data: Vec<u8>,
}

#[derive(Clone, Copy, Default, PartialEq)]
enum Kind {
    #[default]
    Nothing,
    /// A mode, of which nothing has to be kept.
    Entered,
    /// More data came than the limit allows.
    Over,
    Sixel,
    Termcap,
    Short,
}

impl DeviceString {
    /// Whether there is one.
    pub fn is_open(&self) -> bool {
        self.kind != Kind::Nothing
    }

    /// Whether it is a mode.
    pub fn is_mode(&self) -> bool {
        self.kind == Kind::Entered
    }

    /// A string begins.
    pub fn begin(&mut self, event: Event<'_>, to: &mut impl Receiver) {
        let Event::Dcs {
            parameters,
            intermediates,
            has_more,
            byte,
        } = event
        else {
            return;
        };
        self.data.clear();
        self.params.clear();
        let params = dcs_numbers(parameters).map(Option::unwrap_or_default);
        self.params.extend(params);
        self.kind = match (byte, has_more, intermediates) {
            (b'q', false, []) => Kind::Sixel,
            (b'q', false, b"+") => Kind::Termcap,
            (b'q', false, b"$") => Kind::Short,
            _ => {
                let enter = EnterDeviceControlMode {
                    byte,
                    params: &self.params,
                    intermediates,
                    ignored_extra_intermediates: has_more,
                };
                to.act(Action::DeviceControl(DeviceControlMode::Enter(&enter)));
                Kind::Entered
            }
        };
    }

    /// More of its data.
    pub fn push(
        &mut self,
        bytes: &[u8],
        limit: usize,
        to: &mut impl Receiver,
    ) -> Result<(), Error> {
        match self.kind {
            Kind::Nothing | Kind::Over => {}
            Kind::Entered => {
                for byte in bytes {
                    to.act(Action::DeviceControl(DeviceControlMode::Data(*byte)));
                }
            }
            _ if limit - self.data.len() < bytes.len() => {
                self.kind = Kind::Over;
                self.forget();
            }
            _ => {
                let more = self.data.try_reserve(bytes.len());
                more.map_err(|_| Error::Memory)?;
                self.data.extend_from_slice(bytes);
            }
        }
        Ok(())
    }

    /// It ends.
    pub fn end(&mut self, room: &mut Room, to: &mut impl Receiver) -> Result<(), Error> {
        match core::mem::take(&mut self.kind) {
            Kind::Nothing | Kind::Over => return Ok(()),
            Kind::Entered => to.act(Action::DeviceControl(DeviceControlMode::Exit)),
            Kind::Sixel => {
                let sixel = read_sixel(&self.params, &self.data, room)?;
                room.keep(to.image(sixel));
            }
            Kind::Termcap => to.act(Action::XtGetTcap(&xt_get_tcap_in(&self.data, room)?)),
            Kind::Short => {
                let short = ShortDeviceControl {
                    params: &self.params,
                    intermediates: b"$",
                    byte: b'q',
                    data: &self.data,
                };
                to.act(Action::DeviceControl(
                    DeviceControlMode::ShortDeviceControl(&short),
                ));
            }
        }
        self.forget();
        Ok(())
    }

    // Drops its data, and keeps some of their room.
    fn forget(&mut self) {
        self.data.clear();
        self.data.shrink_to(KEPT_ROOM);
    }
}
