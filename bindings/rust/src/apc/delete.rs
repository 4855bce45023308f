// SPDX-License-Identifier: MIT
//! The deletions of images.
use crate::fields::{Fields, image, name};

/// Which placements are deleted. `delete` says whether the data of their images is deleted too,
/// where nothing shows them any more.
#[derive(Clone, Copy, Debug, PartialEq, Eq)]
#[cfg_attr(feature = "serde", derive(serde::Serialize, serde::Deserialize))]
#[non_exhaustive]
pub enum KittyImageDelete {
    /// All that are visible.
    All {
        /// Whether the data too.
        delete: bool,
    },
    /// Those of the image with this id; with a placement id, this placement alone.
    ByImageId {
        /// The image's id.
        image_id: u32,
        /// The placement's id.
        placement_id: Option<u32>,
        /// Whether the data too.
        delete: bool,
    },
    /// Those of the newest image with this number; with a placement id, this placement alone.
    ByImageNumber {
        /// The image's number.
        image_number: u32,
        /// The placement's id.
        placement_id: Option<u32>,
        /// Whether the data too.
        delete: bool,
    },
    /// Those that meet the cursor's cell.
    AtCursorPosition {
        /// Whether the data too.
        delete: bool,
    },
    /// The frames of animations.
    AnimationFrames {
        /// Whether the data too.
        delete: bool,
    },
    /// Those that meet this cell.
    DeleteAt {
        /// The cell's column, from 1.
        x: u32,
        /// The cell's row, from 1.
        y: u32,
        /// Whether the data too.
        delete: bool,
    },
    /// Those that meet this cell and have this order.
    DeleteAtZ {
        /// The cell's column, from 1.
        x: u32,
        /// The cell's row, from 1.
        y: u32,
        /// The order.
        z: i32,
        /// Whether the data too.
        delete: bool,
    },
    /// Those that meet this column.
    DeleteColumn {
        /// The column, from 1.
        x: u32,
        /// Whether the data too.
        delete: bool,
    },
    /// Those that meet this row.
    DeleteRow {
        /// The row, from 1.
        y: u32,
        /// Whether the data too.
        delete: bool,
    },
    /// Those that have this order.
    DeleteZ {
        /// The order.
        z: i32,
        /// Whether the data too.
        delete: bool,
    },
    /// Those of the images with these ids. `termwiz` has no such variant.
    ByImageIdRange {
        /// The first id.
        first: u32,
        /// The last id.
        last: u32,
        /// Whether the data too.
        delete: bool,
    },
}

impl KittyImageDelete {
    // The deletion of a kind, from its fields.
    pub(crate) fn of(kind: u32, fields: &mut Fields<'_>) -> Option<KittyImageDelete> {
        use KittyImageDelete as Delete;
        Some(match kind {
            image::DELETE_ALL => Delete::All {
                delete: delete(fields)?,
            },
            image::DELETE_AT_CURSOR_POSITION => Delete::AtCursorPosition {
                delete: delete(fields)?,
            },
            image::DELETE_ANIMATION_FRAMES => Delete::AnimationFrames {
                delete: delete(fields)?,
            },
            image::DELETE_BY_IMAGE_ID => Delete::ByImageId {
                image_id: fields.number(name::IMAGE_ID)?,
                placement_id: fields.optional(name::PLACEMENT_ID)?,
                delete: delete(fields)?,
            },
            image::DELETE_BY_IMAGE_NUMBER => Delete::ByImageNumber {
                image_number: fields.number(name::IMAGE_NUMBER)?,
                placement_id: fields.optional(name::PLACEMENT_ID)?,
                delete: delete(fields)?,
            },
            image::DELETE_BY_IMAGE_ID_RANGE => Delete::ByImageIdRange {
                first: fields.number(name::FIRST_IMAGE_ID)?,
                last: fields.number(name::LAST_IMAGE_ID)?,
                delete: delete(fields)?,
            },
            _ => return at_a_place(kind, fields),
        })
    }
}

// A deletion by place.
fn at_a_place(kind: u32, fields: &mut Fields<'_>) -> Option<KittyImageDelete> {
    use KittyImageDelete as Delete;
    Some(match kind {
        image::DELETE_AT => Delete::DeleteAt {
            x: fields.number(name::X)?,
            y: fields.number(name::Y)?,
            delete: delete(fields)?,
        },
        image::DELETE_AT_Z => Delete::DeleteAtZ {
            x: fields.number(name::X)?,
            y: fields.number(name::Y)?,
            z: fields.number(name::Z_INDEX)?,
            delete: delete(fields)?,
        },
        image::DELETE_COLUMN => Delete::DeleteColumn {
            x: fields.number(name::X)?,
            delete: delete(fields)?,
        },
        image::DELETE_ROW => Delete::DeleteRow {
            y: fields.number(name::Y)?,
            delete: delete(fields)?,
        },
        image::DELETE_Z => Delete::DeleteZ {
            z: fields.number(name::Z_INDEX)?,
            delete: delete(fields)?,
        },
        _ => return None,
    })
}

fn delete(fields: &mut Fields<'_>) -> Option<bool> {
    fields.flag(name::DELETES_DATA)
}
