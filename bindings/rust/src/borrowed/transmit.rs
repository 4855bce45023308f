// SPDX-License-Identifier: MIT
//! Images on their way to the terminal.
use crate::apc::{self, KittyImageCompression, KittyImageFormat};
use crate::fields::{Fields, name};
use core::fmt;
use core::str;

/// An image on its way to the terminal.
#[derive(Clone, Copy, Debug, PartialEq, Eq)]
pub struct KittyImageTransmit<'a> {
    /// The format of its pixels. If there is none the terminal takes `Rgba`.
    pub format: Option<KittyImageFormat>,
    /// Its data.
    pub data: KittyImageData<'a>,
    /// Its width in pixels.
    pub width: Option<u32>,
    /// Its height in pixels.
    pub height: Option<u32>,
    /// Its id.
    pub image_id: Option<u32>,
    /// Its number, in place of an id that the terminal chooses.
    pub image_number: Option<u32>,
    /// How its pixels are compressed.
    pub compression: KittyImageCompression,
    /// Whether more of it follows in further commands.
    pub more_data_follows: bool,
}

impl<'a> KittyImageTransmit<'a> {
    pub(super) fn of(fields: &mut Fields<'a>) -> Option<KittyImageTransmit<'a>> {
        Some(KittyImageTransmit {
            data: KittyImageData::of(fields)?,
            format: KittyImageFormat::of(fields)?,
            width: fields.optional(name::PIXEL_WIDTH)?,
            height: fields.optional(name::PIXEL_HEIGHT)?,
            image_id: fields.optional(name::IMAGE_ID)?,
            image_number: fields.optional(name::IMAGE_NUMBER)?,
            compression: KittyImageCompression::of(fields)?,
            more_data_follows: fields.flag(name::MORE_DATA_FOLLOWS)?,
        })
    }

    /// The owned value.
    #[must_use]
    pub fn into_owned(self) -> apc::KittyImageTransmit {
        apc::KittyImageTransmit {
            format: self.format,
            data: self.data.into_owned(),
            width: self.width,
            height: self.height,
            image_id: self.image_id,
            image_number: self.image_number,
            compression: self.compression,
            more_data_follows: self.more_data_follows,
        }
    }
}

/// The data of an image, or its place.
#[derive(Clone, Copy, PartialEq, Eq)]
pub enum KittyImageData<'a> {
    /// The payload as it is in the command, in base64. It is not decoded.
    Direct(&'a str),
    /// Bytes that are written as base64. They are never read.
    DirectBin(&'a [u8]),
    /// A file.
    File {
        /// Its path.
        path: &'a str,
        /// The number of its bytes that are the image; if there is none, all.
        data_size: Option<u32>,
        /// How many bytes of it come before them.
        data_offset: Option<u32>,
    },
    /// A file that the terminal deletes once it is read.
    TemporaryFile {
        /// Its path.
        path: &'a str,
        /// The number of its bytes that are the image; if there is none, all.
        data_size: Option<u32>,
        /// How many bytes of it come before them.
        data_offset: Option<u32>,
    },
    /// A shared memory object.
    SharedMem {
        /// Its name.
        name: &'a str,
        /// The number of its bytes that are the image; if there is none, all.
        data_size: Option<u32>,
        /// How many bytes of it come before them.
        data_offset: Option<u32>,
    },
}

impl<'a> KittyImageData<'a> {
    fn of(fields: &mut Fields<'a>) -> Option<KittyImageData<'a>> {
        let bytes = fields.bytes(name::CONTENT)?;
        let medium = fields.number::<u8>(name::MEDIUM)?;
        if medium == 1 {
            return Some(KittyImageData::DirectBin(bytes));
        }
        let text = str::from_utf8(bytes).ok()?;
        let data_size = fields.optional(name::DATA_SIZE)?;
        let data_offset = fields.optional(name::DATA_OFFSET)?;
        match medium {
            0 => Some(KittyImageData::Direct(text)),
            2 => Some(KittyImageData::File {
                path: text,
                data_size,
                data_offset,
            }),
            3 => Some(KittyImageData::TemporaryFile {
                path: text,
                data_size,
                data_offset,
            }),
            4 => Some(KittyImageData::SharedMem {
                name: text,
                data_size,
                data_offset,
            }),
            _ => None,
        }
    }

    /// The owned value.
    #[must_use]
    pub fn into_owned(self) -> apc::KittyImageData {
        use KittyImageData as Borrowed;
        use apc::KittyImageData as Data;
        match self {
            Borrowed::Direct(text) => Data::Direct(text.into()),
            Borrowed::DirectBin(bytes) => Data::DirectBin(bytes.into()),
            Borrowed::File {
                path,
                data_size,
                data_offset,
            } => Data::File {
                path: path.into(),
                data_size,
                data_offset,
            },
            Borrowed::TemporaryFile {
                path,
                data_size,
                data_offset,
            } => Data::TemporaryFile {
                path: path.into(),
                data_size,
                data_offset,
            },
            Borrowed::SharedMem {
                name,
                data_size,
                data_offset,
            } => Data::SharedMem {
                name: name.into(),
                data_size,
                data_offset,
            },
        }
    }
}

impl<'a> From<&'a apc::KittyImageData> for KittyImageData<'a> {
    fn from(data: &'a apc::KittyImageData) -> KittyImageData<'a> {
        use KittyImageData as Borrowed;
        use apc::KittyImageData as Data;
        match *data {
            Data::Direct(ref text) => Borrowed::Direct(text),
            Data::DirectBin(ref bytes) => Borrowed::DirectBin(bytes),
            Data::File {
                ref path,
                data_size,
                data_offset,
            } => Borrowed::File {
                path,
                data_size,
                data_offset,
            },
            Data::TemporaryFile {
                ref path,
                data_size,
                data_offset,
            } => Borrowed::TemporaryFile {
                path,
                data_size,
                data_offset,
            },
            Data::SharedMem {
                ref name,
                data_size,
                data_offset,
            } => Borrowed::SharedMem {
                name,
                data_size,
                data_offset,
            },
        }
    }
}

/// It writes only the number of bytes in the command, since they may be many.
impl fmt::Debug for KittyImageData<'_> {
    fn fmt(&self, f: &mut fmt::Formatter<'_>) -> fmt::Result {
        let (variant, field, named, data_size, data_offset) = match self {
            KittyImageData::Direct(text) => {
                return write!(f, "Direct({} bytes of data)", text.len());
            }
            KittyImageData::DirectBin(bytes) => {
                return write!(f, "DirectBin({} bytes of data)", bytes.len());
            }
            KittyImageData::File {
                path,
                data_size,
                data_offset,
            } => ("File", "path", path, data_size, data_offset),
            KittyImageData::TemporaryFile {
                path,
                data_size,
                data_offset,
            } => ("TemporaryFile", "path", path, data_size, data_offset),
            KittyImageData::SharedMem {
                name,
                data_size,
                data_offset,
            } => ("SharedMem", "name", name, data_size, data_offset),
        };
        f.debug_struct(variant)
            .field(field, named)
            .field("data_offset", data_offset)
            .field("data_size", data_size)
            .finish()
    }
}
