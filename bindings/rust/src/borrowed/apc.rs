// SPDX-License-Identifier: MIT
//! Images of kitty's graphics protocol.
use super::KittyImageTransmit;
use crate::apc::{
    self, KittyImageDelete, KittyImageFrame, KittyImageFrameCompose, KittyImagePlacement,
    KittyImageVerbosity,
};
use crate::fields::{Fields, Room, image, name, read};
use crate::{Error, ffi};

/// A command of kitty's graphics protocol. The owned one is
/// [`apc::KittyImage`](crate::apc::KittyImage).
#[derive(Clone, Copy, Debug, PartialEq, Eq)]
#[non_exhaustive]
pub enum KittyImage<'a> {
    /// Keeps an image.
    TransmitData {
        /// The image.
        transmit: KittyImageTransmit<'a>,
        /// Which answers the terminal sends.
        verbosity: KittyImageVerbosity,
    },
    /// Keeps an image, and shows it.
    TransmitDataAndDisplay {
        /// The image.
        transmit: KittyImageTransmit<'a>,
        /// How it is shown.
        placement: KittyImagePlacement,
        /// Which answers the terminal sends.
        verbosity: KittyImageVerbosity,
    },
    /// Shows an image that is kept.
    Display {
        /// The image's id.
        image_id: Option<u32>,
        /// The image's number.
        image_number: Option<u32>,
        /// How it is shown.
        placement: KittyImagePlacement,
        /// Which answers the terminal sends.
        verbosity: KittyImageVerbosity,
    },
    /// Deletes placements.
    Delete {
        /// Which.
        what: KittyImageDelete,
        /// Which answers the terminal sends.
        verbosity: KittyImageVerbosity,
    },
    /// Asks whether an image could be kept, and keeps it not.
    Query {
        /// The image.
        transmit: KittyImageTransmit<'a>,
    },
    /// Keeps a frame of an animation.
    TransmitFrame {
        /// The frame's pixels.
        transmit: KittyImageTransmit<'a>,
        /// The frame.
        frame: KittyImageFrame,
        /// Which answers the terminal sends.
        verbosity: KittyImageVerbosity,
    },
    /// Puts a part of one frame over another.
    ComposeFrame {
        /// The frames.
        frame: KittyImageFrameCompose,
        /// Which answers the terminal sends.
        verbosity: KittyImageVerbosity,
    },
}

impl<'a> KittyImage<'a> {
    /// The image of a text; none if it is no image.
    pub(crate) fn read(text: &[u8], room: &'a mut Room) -> Result<Option<KittyImage<'a>>, Error> {
        read(text, room, ffi::read_kitty, |kind, fields| {
            if kind == image::NONE {
                Some(None)
            } else {
                image_of(kind, fields).map(Some)
            }
        })
    }

    /// The owned image.
    #[must_use]
    pub fn into_owned(self) -> apc::KittyImage {
        use KittyImage as Borrowed;
        use apc::KittyImage as Image;
        match self {
            Borrowed::TransmitData {
                transmit,
                verbosity,
            } => Image::TransmitData {
                transmit: transmit.into_owned(),
                verbosity,
            },
            Borrowed::TransmitDataAndDisplay {
                transmit,
                placement,
                verbosity,
            } => Image::TransmitDataAndDisplay {
                transmit: transmit.into_owned(),
                placement,
                verbosity,
            },
            Borrowed::Display {
                image_id,
                image_number,
                placement,
                verbosity,
            } => Image::Display {
                image_id,
                image_number,
                placement,
                verbosity,
            },
            Borrowed::Delete { what, verbosity } => Image::Delete { what, verbosity },
            Borrowed::Query { transmit } => Image::Query {
                transmit: transmit.into_owned(),
            },
            Borrowed::TransmitFrame {
                transmit,
                frame,
                verbosity,
            } => Image::TransmitFrame {
                transmit: transmit.into_owned(),
                frame,
                verbosity,
            },
            Borrowed::ComposeFrame { frame, verbosity } => Image::ComposeFrame { frame, verbosity },
        }
    }
}

// The image of a kind, from its fields.
fn image_of<'a>(kind: u32, fields: &mut Fields<'a>) -> Option<KittyImage<'a>> {
    Some(match kind {
        image::TRANSMIT_DATA => KittyImage::TransmitData {
            transmit: KittyImageTransmit::of(fields)?,
            verbosity: KittyImageVerbosity::of(fields)?,
        },
        image::TRANSMIT_DATA_AND_DISPLAY => KittyImage::TransmitDataAndDisplay {
            transmit: KittyImageTransmit::of(fields)?,
            placement: KittyImagePlacement::of(fields)?,
            verbosity: KittyImageVerbosity::of(fields)?,
        },
        image::DISPLAY => KittyImage::Display {
            image_id: fields.optional(name::IMAGE_ID)?,
            image_number: fields.optional(name::IMAGE_NUMBER)?,
            placement: KittyImagePlacement::of(fields)?,
            verbosity: KittyImageVerbosity::of(fields)?,
        },
        image::QUERY => KittyImage::Query {
            transmit: KittyImageTransmit::of(fields)?,
        },
        image::TRANSMIT_FRAME => KittyImage::TransmitFrame {
            transmit: KittyImageTransmit::of(fields)?,
            frame: KittyImageFrame::of(fields)?,
            verbosity: KittyImageVerbosity::of(fields)?,
        },
        image::COMPOSE_FRAME => KittyImage::ComposeFrame {
            frame: KittyImageFrameCompose::of(fields)?,
            verbosity: KittyImageVerbosity::of(fields)?,
        },
        _ => KittyImage::Delete {
            what: KittyImageDelete::of(kind, fields)?,
            verbosity: KittyImageVerbosity::of(fields)?,
        },
    })
}
