// SPDX-License-Identifier: MIT
//! Images of kitty's graphics protocol
//! (<https://sw.kovidgoyal.net/kitty/graphics-protocol/>) as values.
//!
//! The names are those of the crate `termwiz`. Texts are owned, but for the values of the module
//! [`borrowed`].
mod delete;
mod transmit;
mod written;

pub use delete::KittyImageDelete;
pub use transmit::{KittyImageCompression, KittyImageData, KittyImageFormat, KittyImageTransmit};

use crate::fields::{Fields, Room, name};
use crate::{Error, borrowed};

/// A command of kitty's graphics protocol.
#[derive(Clone, Debug, PartialEq, Eq)]
#[cfg_attr(feature = "serde", derive(serde::Serialize, serde::Deserialize))]
#[non_exhaustive]
pub enum KittyImage {
    /// Keeps an image.
    TransmitData {
        /// The image.
        transmit: KittyImageTransmit,
        /// Which answers the terminal sends.
        verbosity: KittyImageVerbosity,
    },
    /// Keeps an image, and shows it.
    TransmitDataAndDisplay {
        /// The image.
        transmit: KittyImageTransmit,
        /// How it is shown.
        placement: KittyImagePlacement,
        /// Which answers the terminal sends.
        verbosity: KittyImageVerbosity,
    },
    /// Shows an image that is kept.
    Display {
        /// The image's id.
        image_id: Option<u32>,
        /// The image's number.
        image_number: Option<u32>,
        /// How it is shown.
        placement: KittyImagePlacement,
        /// Which answers the terminal sends.
        verbosity: KittyImageVerbosity,
    },
    /// Deletes placements.
    Delete {
        /// Which.
        what: KittyImageDelete,
        /// Which answers the terminal sends.
        verbosity: KittyImageVerbosity,
    },
    /// Asks whether an image could be kept, and keeps it not.
    Query {
        /// The image.
        transmit: KittyImageTransmit,
    },
    /// Keeps a frame of an animation.
    TransmitFrame {
        /// The frame's pixels.
        transmit: KittyImageTransmit,
        /// The frame.
        frame: KittyImageFrame,
        /// Which answers the terminal sends.
        verbosity: KittyImageVerbosity,
    },
    /// Puts a part of one frame over another.
    ComposeFrame {
        /// The frames.
        frame: KittyImageFrameCompose,
        /// Which answers the terminal sends.
        verbosity: KittyImageVerbosity,
    },
}

impl KittyImage {
    /// The image of this text: the bytes between `ESC _` and their end, as
    /// [`Event::Apc`](crate::Event::Apc) has them; none if it is no image. A payload is as it
    /// came, in base64.
    ///
    /// ```
    /// use escape_stream::apc::{KittyImage, KittyImageDelete};
    ///
    /// let image = KittyImage::parse_apc(b"Ga=d,d=I,i=10")?;
    /// if let Some(KittyImage::Delete { what, .. }) = image {
    ///     let (image_id, placement_id) = (10, None);
    ///     let wanted = KittyImageDelete::ByImageId { image_id, placement_id, delete: true };
    ///     assert_eq!(what, wanted);
    /// }
    /// assert_eq!(KittyImage::parse_apc(b"no image")?, None);
    /// # Ok::<(), escape_stream::Error>(())
    /// ```
    ///
    /// # Errors
    ///
    /// Those of [`OperatingSystemCommand::parse`](crate::osc::OperatingSystemCommand::parse).
    pub fn parse_apc(text: &[u8]) -> Result<Option<KittyImage>, Error> {
        let mut room = Room::default();
        let image = borrowed::KittyImage::read(text, &mut room)?;
        Ok(image.map(borrowed::KittyImage::into_owned))
    }

    /// The answers of the terminal to the command. A `Query` has `Verbose`, since it asks for an
    /// answer.
    #[must_use]
    pub fn verbosity(&self) -> KittyImageVerbosity {
        match self {
            KittyImage::TransmitData { verbosity, .. }
            | KittyImage::TransmitDataAndDisplay { verbosity, .. }
            | KittyImage::Display { verbosity, .. }
            | KittyImage::Delete { verbosity, .. }
            | KittyImage::TransmitFrame { verbosity, .. }
            | KittyImage::ComposeFrame { verbosity, .. } => *verbosity,
            KittyImage::Query { .. } => KittyImageVerbosity::Verbose,
        }
    }
}

/// The answers of the terminal to a command.
#[derive(Clone, Copy, Debug, PartialEq, Eq, Hash)]
#[cfg_attr(feature = "serde", derive(serde::Serialize, serde::Deserialize))]
pub enum KittyImageVerbosity {
    /// Successes and errors.
    Verbose,
    /// Errors alone.
    OnlyErrors,
    /// Nothing.
    Quiet,
}

impl KittyImageVerbosity {
    pub(crate) fn of(fields: &mut Fields<'_>) -> Option<KittyImageVerbosity> {
        use KittyImageVerbosity as Verbosity;
        [Verbosity::Verbose, Verbosity::OnlyErrors, Verbosity::Quiet]
            .get(fields.number::<usize>(name::VERBOSITY)?)
            .copied()
    }
}

/// How an image is shown.
#[derive(Clone, Copy, Debug, PartialEq, Eq)]
#[cfg_attr(feature = "serde", derive(serde::Serialize, serde::Deserialize))]
pub struct KittyImagePlacement {
    /// The left edge of the part of the image that is shown, in pixels.
    pub x: Option<u32>,
    /// The top edge of that part, in pixels.
    pub y: Option<u32>,
    /// The width of that part, in pixels. If there is none, all is shown.
    pub w: Option<u32>,
    /// The height of that part, in pixels. If there is none, all is shown.
    pub h: Option<u32>,
    /// How far from the left edge of the first cell it is shown, in pixels.
    pub x_offset: Option<u32>,
    /// How far from the top edge of the first cell it is shown, in pixels.
    pub y_offset: Option<u32>,
    /// The number of columns that it is scaled to.
    pub columns: Option<u32>,
    /// The number of rows that it is scaled to.
    pub rows: Option<u32>,
    /// The id of the placement.
    pub placement_id: Option<u32>,
    /// Whether the cursor stays where it is. Else it moves after the image.
    pub do_not_move_cursor: bool,
    /// Its order above and below others. Below 0 it is shown below the text.
    pub z_index: Option<i32>,
    /// Whether it is shown in the place of placeholder characters, U+10EEEE. `termwiz` has no such
    /// field.
    pub unicode_placeholder: bool,
}

impl KittyImagePlacement {
    pub(crate) fn of(fields: &mut Fields<'_>) -> Option<KittyImagePlacement> {
        Some(KittyImagePlacement {
            x: fields.optional(name::X)?,
            y: fields.optional(name::Y)?,
            w: fields.optional(name::WIDTH)?,
            h: fields.optional(name::HEIGHT)?,
            x_offset: fields.optional(name::X_OFFSET)?,
            y_offset: fields.optional(name::Y_OFFSET)?,
            columns: fields.optional(name::COLUMNS)?,
            rows: fields.optional(name::ROWS)?,
            placement_id: fields.optional(name::PLACEMENT_ID)?,
            do_not_move_cursor: fields.flag(name::DO_NOT_MOVE_CURSOR)?,
            z_index: fields.optional(name::Z_INDEX)?,
            unicode_placeholder: fields.flag(name::UNICODE_PLACEHOLDER)?,
        })
    }
}

/// How a frame's pixels are put over others.
#[derive(Clone, Copy, Debug, PartialEq, Eq, Hash)]
#[cfg_attr(feature = "serde", derive(serde::Serialize, serde::Deserialize))]
pub enum KittyFrameCompositionMode {
    /// The colours are blended by their alpha.
    AlphaBlending,
    /// The new pixels replace the others.
    Overwrite,
}

impl KittyFrameCompositionMode {
    fn of(fields: &mut Fields<'_>) -> Option<KittyFrameCompositionMode> {
        match fields.number::<u8>(name::COMPOSITION_MODE)? {
            0 => Some(KittyFrameCompositionMode::AlphaBlending),
            1 => Some(KittyFrameCompositionMode::Overwrite),
            _ => None,
        }
    }
}

/// A frame of an animation that is sent.
#[derive(Clone, Copy, Debug, PartialEq, Eq)]
#[cfg_attr(feature = "serde", derive(serde::Serialize, serde::Deserialize))]
pub struct KittyImageFrame {
    /// The left edge at which its pixels are put, in pixels.
    pub x: Option<u32>,
    /// The top edge at which its pixels are put, in pixels.
    pub y: Option<u32>,
    /// The frame whose pixels it begins with, from 1. If there is none it begins with the
    /// background.
    pub base_frame: Option<u32>,
    /// The frame that is edited, from 1. If there is none a new one is made.
    pub frame_number: Option<u32>,
    /// How long it is shown before the next, in milliseconds.
    pub duration_ms: Option<u32>,
    /// How its pixels are put over those that it begins with.
    pub composition_mode: KittyFrameCompositionMode,
    /// The colour of the background, as red, green, blue and alpha of 8 bits, red the highest.
    pub background_pixel: Option<u32>,
}

impl KittyImageFrame {
    pub(crate) fn of(fields: &mut Fields<'_>) -> Option<KittyImageFrame> {
        Some(KittyImageFrame {
            x: fields.optional(name::X)?,
            y: fields.optional(name::Y)?,
            base_frame: fields.optional(name::BASE_FRAME)?,
            frame_number: fields.optional(name::FRAME_NUMBER)?,
            duration_ms: fields.optional(name::DURATION)?,
            composition_mode: KittyFrameCompositionMode::of(fields)?,
            background_pixel: fields.optional(name::BACKGROUND_PIXEL)?,
        })
    }
}

/// A part of one frame that is put over another of the same image.
#[derive(Clone, Copy, Debug, PartialEq, Eq)]
#[cfg_attr(feature = "serde", derive(serde::Serialize, serde::Deserialize))]
pub struct KittyImageFrameCompose {
    /// The image's id.
    pub image_id: Option<u32>,
    /// The image's number.
    pub image_number: Option<u32>,
    /// The frame that is changed, from 1.
    pub target_frame: Option<u32>,
    /// The frame that the pixels are taken from, counted from 1.
    pub source_frame: Option<u32>,
    /// The left edge at which they are put, in pixels.
    pub x: Option<u32>,
    /// The top edge at which they are put, in pixels.
    pub y: Option<u32>,
    /// The width of the part, in pixels. If there is none, all of it.
    pub w: Option<u32>,
    /// The height of the part, in pixels. If there is none, all of it.
    pub h: Option<u32>,
    /// The left edge of the part that is taken, in pixels.
    pub src_x: Option<u32>,
    /// The top edge of the part that is taken, in pixels.
    pub src_y: Option<u32>,
    /// How its pixels are put over the others.
    pub composition_mode: KittyFrameCompositionMode,
}

impl KittyImageFrameCompose {
    pub(crate) fn of(fields: &mut Fields<'_>) -> Option<KittyImageFrameCompose> {
        Some(KittyImageFrameCompose {
            image_id: fields.optional(name::IMAGE_ID)?,
            image_number: fields.optional(name::IMAGE_NUMBER)?,
            target_frame: fields.optional(name::TARGET_FRAME)?,
            source_frame: fields.optional(name::SOURCE_FRAME)?,
            x: fields.optional(name::X)?,
            y: fields.optional(name::Y)?,
            w: fields.optional(name::WIDTH)?,
            h: fields.optional(name::HEIGHT)?,
            src_x: fields.optional(name::SOURCE_X)?,
            src_y: fields.optional(name::SOURCE_Y)?,
            composition_mode: KittyFrameCompositionMode::of(fields)?,
        })
    }
}
