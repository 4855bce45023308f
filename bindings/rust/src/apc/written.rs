// SPDX-License-Identifier: MIT
//! The bytes of images.
use super::{
    KittyFrameCompositionMode, KittyImage, KittyImageCompression, KittyImageData, KittyImageDelete,
    KittyImageFormat, KittyImageFrame, KittyImageFrameCompose, KittyImagePlacement,
    KittyImageTransmit, KittyImageVerbosity,
};
use crate::Error;
use crate::action::Action;
use crate::written::{checked_string, displayed};
use alloc::format;
use alloc::string::String;
use alloc::vec::Vec;
use core::fmt::Display;

displayed!(KittyImage);

impl KittyImage {
    /// The bytes of this image: an application program command with its terminator, which reads
    /// back as this image; one of `DirectBin` as one of `Direct`, in base64.
    ///
    /// ```
    /// use escape_stream::apc::KittyImage;
    ///
    /// let image = KittyImage::parse_apc(b"Gq=1,a=d,d=I,i=010")?.unwrap();
    /// assert_eq!(image.to_bytes()?, b"\x1b_Ga=d,d=I,i=10,q=1\x1b\\");
    /// # Ok::<(), escape_stream::Error>(())
    /// ```
    ///
    /// # Errors
    ///
    /// [`Error::NotWritable`] if no bytes would read back as it: a payload has other bytes than
    /// 20 to 7F (hexadecimal), or a number is 0 of which 0 reads as none. [`Error::Memory`] if
    /// the library was refused memory.
    pub fn to_bytes(&self) -> Result<Vec<u8>, Error> {
        let mut keys = Keys::default();
        keys.image(self);
        let text = format!(
            "\x1b_G{}{}\x1b\\",
            keys.text,
            keys.payload.unwrap_or_default()
        );
        checked_string(text.as_bytes(), |found| match found {
            Action::KittyImage(it) => is_meant(self, it),
            _ => false,
        })
    }
}

// Whether an image reads as another: the bytes of a `DirectBin` as base64.
fn is_meant(image: &KittyImage, read: &KittyImage) -> bool {
    let mut image = image.clone();
    if let KittyImage::TransmitData { transmit, .. }
    | KittyImage::TransmitDataAndDisplay { transmit, .. }
    | KittyImage::Query { transmit }
    | KittyImage::TransmitFrame { transmit, .. } = &mut image
    {
        if let KittyImageData::DirectBin(bytes) = &transmit.data {
            transmit.data = KittyImageData::Direct(base64(bytes));
        }
    }
    image == *read
}

// Keys with their values, and the payload after `;`.
#[derive(Default)]
struct Keys {
    text: String,
    payload: Option<String>,
}

impl Keys {
    fn key(&mut self, key: char, value: impl Display) -> &mut Keys {
        let separator = if self.text.is_empty() { "" } else { "," };
        self.text += &format!("{separator}{key}={value}");
        self
    }

    fn some(&mut self, key: char, value: Option<impl Display>) -> &mut Keys {
        if let Some(value) = value {
            self.key(key, value);
        }
        self
    }

    fn image(&mut self, image: &KittyImage) {
        match image {
            KittyImage::TransmitData { transmit, .. } => self.key('a', 't').transmit(transmit),
            KittyImage::TransmitDataAndDisplay {
                transmit,
                placement,
                ..
            } => self.key('a', 'T').transmit(transmit).placement(placement),
            KittyImage::Display {
                image_id,
                image_number,
                placement,
                ..
            } => self
                .key('a', 'p')
                .some('i', *image_id)
                .some('I', *image_number)
                .placement(placement),
            KittyImage::Delete { what, .. } => self.key('a', 'd').delete(what),
            KittyImage::Query { transmit } => self.key('a', 'q').transmit(transmit),
            KittyImage::TransmitFrame {
                transmit, frame, ..
            } => self.key('a', 'f').transmit(transmit).frame(frame),
            KittyImage::ComposeFrame { frame, .. } => self.key('a', 'c').compose(frame),
        };
        match image.verbosity() {
            KittyImageVerbosity::Verbose => {}
            KittyImageVerbosity::OnlyErrors => drop(self.key('q', 1)),
            KittyImageVerbosity::Quiet => drop(self.key('q', 2)),
        }
    }

    fn transmit(&mut self, transmit: &KittyImageTransmit) -> &mut Keys {
        let format = transmit.format.map(|format| match format {
            KittyImageFormat::Rgb => 24,
            KittyImageFormat::Rgba => 32,
            KittyImageFormat::Png => 100,
        });
        self.some('f', format)
            .some('s', transmit.width)
            .some('v', transmit.height)
            .some('i', transmit.image_id)
            .some('I', transmit.image_number)
            .flag('m', transmit.more_data_follows)
            .data(&transmit.data);
        match transmit.compression {
            KittyImageCompression::None => self,
            KittyImageCompression::Deflate => self.key('o', 'z'),
        }
    }

    fn flag(&mut self, key: char, is_set: bool) -> &mut Keys {
        self.some(key, is_set.then_some(1))
    }

    fn data(&mut self, data: &KittyImageData) {
        let (medium, text, size, offset) = match data {
            KittyImageData::Direct(text) => return self.put(text),
            KittyImageData::DirectBin(bytes) => return self.put(&base64(bytes)),
            KittyImageData::File {
                path,
                data_size,
                data_offset,
            } => ('f', path, data_size, data_offset),
            KittyImageData::TemporaryFile {
                path,
                data_size,
                data_offset,
            } => ('t', path, data_size, data_offset),
            KittyImageData::SharedMem {
                name,
                data_size,
                data_offset,
            } => ('s', name, data_size, data_offset),
        };
        self.key('t', medium)
            .some('S', *size)
            .some('O', *offset)
            .put(&base64(text.as_bytes()));
    }

    fn put(&mut self, payload: &str) {
        self.payload = Some(format!(";{payload}"));
    }

    fn placement(&mut self, placement: &KittyImagePlacement) -> &mut Keys {
        self.some('x', placement.x)
            .some('y', placement.y)
            .some('w', placement.w)
            .some('h', placement.h)
            .some('X', placement.x_offset)
            .some('Y', placement.y_offset)
            .some('c', placement.columns)
            .some('r', placement.rows)
            .some('p', placement.placement_id)
            .some('z', placement.z_index)
            .flag('C', placement.do_not_move_cursor)
            .flag('U', placement.unicode_placeholder)
    }

    fn frame(&mut self, frame: &KittyImageFrame) -> &mut Keys {
        self.some('x', frame.x)
            .some('y', frame.y)
            .some('c', frame.base_frame)
            .some('r', frame.frame_number)
            .some('z', frame.duration_ms)
            .some('Y', frame.background_pixel)
            .flag('X', is_overwritten(frame.composition_mode))
    }

    fn compose(&mut self, frame: &KittyImageFrameCompose) -> &mut Keys {
        self.some('i', frame.image_id)
            .some('I', frame.image_number)
            .some('c', frame.target_frame)
            .some('r', frame.source_frame)
            .some('x', frame.x)
            .some('y', frame.y)
            .some('w', frame.w)
            .some('h', frame.h)
            .some('X', frame.src_x)
            .some('Y', frame.src_y)
            .flag('C', is_overwritten(frame.composition_mode))
    }

    fn delete(&mut self, what: &KittyImageDelete) -> &mut Keys {
        use KittyImageDelete as Delete;
        match *what {
            Delete::All { delete } => self.which('a', delete),
            Delete::ByImageId {
                image_id,
                placement_id,
                delete,
            } => self
                .which('i', delete)
                .key('i', image_id)
                .some('p', placement_id),
            Delete::ByImageNumber {
                image_number,
                placement_id,
                delete,
            } => self
                .which('n', delete)
                .key('I', image_number)
                .some('p', placement_id),
            Delete::AtCursorPosition { delete } => self.which('c', delete),
            Delete::AnimationFrames { delete } => self.which('f', delete),
            Delete::DeleteAt { x, y, delete } => self.which('p', delete).key('x', x).key('y', y),
            Delete::DeleteAtZ { x, y, z, delete } => {
                self.which('q', delete).key('x', x).key('y', y).key('z', z)
            }
            Delete::DeleteColumn { x, delete } => self.which('x', delete).key('x', x),
            Delete::DeleteRow { y, delete } => self.which('y', delete).key('y', y),
            Delete::DeleteZ { z, delete } => self.which('z', delete).key('z', z),
            Delete::ByImageIdRange {
                first,
                last,
                delete,
            } => self.which('r', delete).key('x', first).key('y', last),
        }
    }

    // The images to delete: by a capital letter the data too.
    fn which(&mut self, letter: char, delete: bool) -> &mut Keys {
        let capital = letter.to_ascii_uppercase();
        self.key('d', if delete { capital } else { letter })
    }
}

fn is_overwritten(mode: KittyFrameCompositionMode) -> bool {
    match mode {
        KittyFrameCompositionMode::AlphaBlending => false,
        KittyFrameCompositionMode::Overwrite => true,
    }
}

// Bytes in base64 (RFC 4648, section 4).
fn base64(bytes: &[u8]) -> String {
    const DIGITS: &[u8; 64] = b"ABCDEFGHIJKLMNOPQRSTUVWXYZabcdefghijklmnopqrstuvwxyz0123456789+/";
    let mut text = String::with_capacity((bytes.len() + 2) / 3 * 4);
    for group in bytes.chunks(3) {
        let byte = |i: usize| u32::from(group.get(i).copied().unwrap_or(0));
        let bits = byte(0) << 16 | byte(1) << 8 | byte(2);
        for i in 0..4 {
            let digit = DIGITS[(bits >> (18 - 6 * i)) as usize % 64];
            text.push(if i <= group.len() {
                char::from(digit)
            } else {
                '='
            });
        }
    }
    text
}
