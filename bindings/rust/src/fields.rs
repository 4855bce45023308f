// SPDX-License-Identifier: MIT
//! The fields of a command or an image, taken one after another. The numbers are those of
//! `escape_stream.h`.
use crate::dcs::SixelData;
use crate::{Error, ffi, numbered};
use alloc::vec::Vec;
use core::str;

/// Room for what a call writes. It is used again, and grows if more is needed.
#[derive(Default)]
pub struct Room {
    rows: Vec<ffi::Field>,
    texts: Vec<u8>,
    pub items: Vec<ffi::SixelItem>,
    // Room for the data of the next sixel image.
    pixels: Vec<SixelData>,
}

// Room for so much sixel data is kept from one image to the next.
const KEPT_PIXELS: usize = 1 << 14;

/// A copy has no room yet: between two calls nothing is kept in it.
impl Clone for Room {
    fn clone(&self) -> Room {
        Room::default()
    }
}

impl Room {
    /// The room for the data of a sixel image, with nothing in it.
    pub fn pixels(&mut self) -> Vec<SixelData> {
        core::mem::take(&mut self.pixels)
    }

    /// Keeps this room for the data of the next sixel image.
    pub fn keep(&mut self, mut pixels: Vec<SixelData>) {
        pixels.clear();
        pixels.shrink_to(KEPT_PIXELS);
        self.pixels = pixels;
    }
}

/// The value of a text: what a call says of it, in first as much room as most need, made of its
/// kind and its fields, which lie in this room.
pub fn read<'a, T>(
    text: &[u8],
    room: &'a mut Room,
    call: impl Fn(&[u8], &mut [ffi::Field], &mut [u8]) -> Result<ffi::Said, Error>,
    value: impl FnOnce(u32, &mut Fields<'a>) -> Option<T>,
) -> Result<T, Error> {
    let Room { rows, texts, .. } = room;
    make_room(rows, 8, ffi::NO_FIELD)?;
    make_room(texts, text.len(), 0)?;
    let mut said = call(text, rows, texts)?;
    if said.field_count > rows.len() || said.text_length > texts.len() {
        make_room(rows, said.field_count, ffi::NO_FIELD)?;
        make_room(texts, said.text_length, 0)?;
        said = call(text, rows, texts)?;
    }
    let mut fields = Fields {
        rows: rows.get(..said.field_count).ok_or(Error::Failed)?,
        texts: texts.get(..said.text_length).ok_or(Error::Failed)?,
    };
    value(said.kind, &mut fields)
        .filter(|_| fields.is_empty())
        .ok_or(Error::Failed)
}

/// Makes the items so many, if they are fewer.
pub fn make_room<T: Clone>(items: &mut Vec<T>, count: usize, item: T) -> Result<(), Error> {
    let more = count.saturating_sub(items.len());
    items.try_reserve_exact(more).map_err(|_| Error::Memory)?;
    items.resize(items.len() + more, item);
    Ok(())
}

/// The kinds of commands, `ESCAPE_STREAM_OSC_..`.
pub mod kind {
    crate::numbered! { 0;
        UNSPECIFIED SET_ICON_NAME_AND_WINDOW_TITLE SET_WINDOW_TITLE SET_WINDOW_TITLE_SUN
        SET_ICON_NAME SET_ICON_NAME_SUN SET_HYPERLINK CLEAR_SELECTION QUERY_SELECTION
        SET_SELECTION SYSTEM_NOTIFICATION CHANGE_COLOR_NUMBER CHANGE_DYNAMIC_COLORS
        RESET_DYNAMIC_COLOR CURRENT_WORKING_DIRECTORY RESET_COLORS RXVT_EXTENSION CONEMU_PROGRESS
        PROMPT_FRESH_LINE PROMPT_FRESH_LINE_AND_START_PROMPT
        PROMPT_END_OF_COMMAND_WITH_FRESH_LINE PROMPT_START_PROMPT
        PROMPT_START_OF_INPUT_UNTIL_NEXT_MARKER PROMPT_START_OF_INPUT_UNTIL_END_OF_LINE
        PROMPT_START_OF_OUTPUT PROMPT_COMMAND_STATUS
        ITERM_SET_MARK ITERM_STEAL_FOCUS ITERM_CLEAR_SCROLLBACK ITERM_CURRENT_DIR
        ITERM_SET_PROFILE ITERM_COPY_TO_CLIPBOARD ITERM_END_COPY ITERM_HIGHLIGHT_CURSOR_LINE
        ITERM_REQUEST_CELL_SIZE ITERM_REPORT_CELL_SIZE ITERM_COPY ITERM_REPORT_VARIABLE
        ITERM_SET_USER_VAR ITERM_SET_BADGE_FORMAT ITERM_FILE ITERM_SET_UNICODE_VERSION
        ITERM_PUSH_UNICODE_VERSION ITERM_POP_UNICODE_VERSION
    }
}

/// The kinds of kitty's images, `ESCAPE_STREAM_KITTY_..`.
pub mod image {
    crate::numbered! { 0;
        NONE TRANSMIT_DATA TRANSMIT_DATA_AND_DISPLAY DISPLAY QUERY TRANSMIT_FRAME COMPOSE_FRAME
        DELETE_ALL DELETE_BY_IMAGE_ID DELETE_BY_IMAGE_NUMBER DELETE_AT_CURSOR_POSITION
        DELETE_ANIMATION_FRAMES DELETE_AT DELETE_AT_Z DELETE_COLUMN DELETE_ROW DELETE_Z
        DELETE_BY_IMAGE_ID_RANGE
    }
}

/// The names of fields, `ESCAPE_STREAM_FIELD_..`.
pub mod name {
    crate::numbered! { 0;
        TEXT PART DIRECTORY URI IMPLICIT KEY VALUE SELECTION PALETTE_INDEX DYNAMIC_COLOR RED GREEN
        BLUE QUERY PROGRESS_STATE PERCENT APPLICATION CLICK PROMPT_KIND STATUS NAME HIGHLIGHTED
        CELL_HEIGHT CELL_WIDTH SCALE SIZE WIDTH_CELLS WIDTH_PIXELS WIDTH_PERCENT HEIGHT_CELLS
        HEIGHT_PIXELS HEIGHT_PERCENT PRESERVE_ASPECT_RATIO INLINE DO_NOT_MOVE_CURSOR CONTENT
        VERSION LABEL MEDIUM DATA_SIZE DATA_OFFSET FORMAT PIXEL_WIDTH PIXEL_HEIGHT IMAGE_ID
        IMAGE_NUMBER COMPRESSION MORE_DATA_FOLLOWS X Y WIDTH HEIGHT X_OFFSET Y_OFFSET COLUMNS ROWS
        PLACEMENT_ID Z_INDEX UNICODE_PLACEHOLDER BASE_FRAME FRAME_NUMBER DURATION COMPOSITION_MODE
        BACKGROUND_PIXEL TARGET_FRAME SOURCE_FRAME SOURCE_X SOURCE_Y DELETES_DATA FIRST_IMAGE_ID
        LAST_IMAGE_ID VERBOSITY
    }
}

// The value of a field, `ESCAPE_STREAM_VALUE_..`.
numbered! { 0; VALUE_NUMBER VALUE_TEXT VALUE_SIZE }

/// Fields that are left. Each call takes the next one, if it has this name and holds what is
/// asked for, and else none.
#[derive(Clone, Copy)]
pub struct Fields<'a> {
    rows: &'a [ffi::Field],
    texts: &'a [u8],
}

impl<'a> Fields<'a> {
    pub const NONE: Fields<'a> = Fields {
        rows: &[],
        texts: &[],
    };

    pub fn is_empty(&self) -> bool {
        self.rows.is_empty()
    }

    /// Whether the next field has this name.
    pub fn has(&self, name: u32) -> bool {
        self.rows.first().is_some_and(|row| row.name == name)
    }

    fn take(&mut self, name: u32, kind: u32) -> Option<&'a ffi::Field> {
        let (row, rest) = self.rows.split_first()?;
        if row.name != name || row.kind != kind {
            return None;
        }
        self.rows = rest;
        Some(row)
    }

    /// A number.
    pub fn number<T: TryFrom<i64>>(&mut self, name: u32) -> Option<T> {
        self.take(name, VALUE_NUMBER)?.number.try_into().ok()
    }

    /// A number, if there is one.
    pub fn optional<T: TryFrom<i64>>(&mut self, name: u32) -> Option<Option<T>> {
        if self.has(name) {
            self.number(name).map(Some)
        } else {
            Some(None)
        }
    }

    /// A flag.
    pub fn flag(&mut self, name: u32) -> Option<bool> {
        Some(self.number::<u8>(name)? != 0)
    }

    /// A size.
    pub fn size(&mut self, name: u32) -> Option<usize> {
        Some(self.take(name, VALUE_SIZE)?.length)
    }

    /// Bytes.
    pub fn bytes(&mut self, name: u32) -> Option<&'a [u8]> {
        let row = self.take(name, VALUE_TEXT)?;
        self.texts.get(row.offset..)?.get(..row.length)
    }

    /// A text.
    pub fn text(&mut self, name: u32) -> Option<&'a str> {
        str::from_utf8(self.bytes(name)?).ok()
    }

    /// A text, if there is one.
    pub fn optional_text(&mut self, name: u32) -> Option<Option<&'a str>> {
        if self.has(name) {
            self.text(name).map(Some)
        } else {
            Some(None)
        }
    }
}
