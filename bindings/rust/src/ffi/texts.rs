// SPDX-License-Identifier: MIT
//! The calls that read the text of a command, an image or a query.
use super::done;
use crate::Error;

extern "C" {
    fn escape_stream_read_osc(
        text: *const u8,
        length: usize,
        osc: *mut Said,
        fields: *mut Field,
        field_room: usize,
        out: *mut u8,
        capacity: usize,
    ) -> u32;
    fn escape_stream_write_osc(
        kind: u32,
        fields: *const Field,
        count: usize,
        text: *const u8,
        text_length: usize,
        out: *mut u8,
        capacity: usize,
        needed: *mut usize,
    ) -> u32;
    fn escape_stream_read_tcap(
        text: *const u8,
        length: usize,
        query: *mut Query,
        fields: *mut Field,
        field_room: usize,
        out: *mut u8,
        capacity: usize,
    ) -> u32;
    fn escape_stream_read_sixel(
        params: *const i64,
        count: usize,
        text: *const u8,
        length: usize,
        sixel: *mut Sixel,
        items: *mut SixelItem,
        item_room: usize,
    ) -> u32;
    fn escape_stream_read_kitty(
        text: *const u8,
        length: usize,
        image: *mut Said,
        fields: *mut Field,
        field_room: usize,
        out: *mut u8,
        capacity: usize,
    ) -> u32;
}

const NO_COMMAND: u32 = 4;
const NOT_WRITABLE: u32 = 5;

/// A field of a command.
#[repr(C)]
#[derive(Clone, Copy)]
pub struct Field {
    pub name: u32,
    pub kind: u32,
    pub number: i64,
    pub offset: usize,
    pub length: usize,
}

/// A field before a call writes it.
pub const NO_FIELD: Field = Field {
    name: 0,
    kind: 0,
    number: 0,
    offset: 0,
    length: 0,
};

/// The answer of a call on a text: a kind, and the room that its fields and their texts need.
#[repr(C)]
pub struct Said {
    pub kind: u32,
    pub field_count: usize,
    pub text_length: usize,
}

const NOTHING_SAID: Said = Said {
    kind: 0,
    field_count: 0,
    text_length: 0,
};

/// Reads the text of a command.
pub fn read_osc(text: &[u8], fields: &mut [Field], out: &mut [u8]) -> Result<Said, Error> {
    let mut osc = NOTHING_SAID;
    // SAFETY: the references are what the types ask for. Clause `written` says what `fields` and
    // `out` hold after `DONE`, initialized all of them, clause `value` what `osc` holds, and
    // `refused` that all are as they were after any other status.
    let status = unsafe {
        escape_stream_read_osc(
            text.as_ptr(),
            text.len(),
            &mut osc,
            fields.as_mut_ptr(),
            fields.len(),
            out.as_mut_ptr(),
            out.len(),
        )
    };
    done(status, osc)
}

/// Reads the text of an image of kitty's.
pub fn read_kitty(text: &[u8], fields: &mut [Field], out: &mut [u8]) -> Result<Said, Error> {
    let mut image = NOTHING_SAID;
    // SAFETY: as in `read_osc`.
    let status = unsafe {
        escape_stream_read_kitty(
            text.as_ptr(),
            text.len(),
            &mut image,
            fields.as_mut_ptr(),
            fields.len(),
            out.as_mut_ptr(),
            out.len(),
        )
    };
    done(status, image)
}

/// How many names a termcap query has, and how much room they need.
#[repr(C)]
struct Query {
    name_count: usize,
    text_length: usize,
}

/// Reads the data of a termcap query.
pub fn read_tcap(text: &[u8], fields: &mut [Field], out: &mut [u8]) -> Result<Said, Error> {
    let mut query = Query {
        name_count: 0,
        text_length: 0,
    };
    // SAFETY: as in `read_osc`.
    let status = unsafe {
        escape_stream_read_tcap(
            text.as_ptr(),
            text.len(),
            &mut query,
            fields.as_mut_ptr(),
            fields.len(),
            out.as_mut_ptr(),
            out.len(),
        )
    };
    done(
        status,
        Said {
            kind: 0,
            field_count: query.name_count,
            text_length: query.text_length,
        },
    )
}

/// An item of a sixel image.
#[repr(C)]
#[derive(Clone)]
pub struct SixelItem {
    pub kind: u32,
    pub count: u32,
    pub color: u16,
    pub hue: u16,
    pub pixels: u8,
    pub red: u8,
    pub green: u8,
    pub blue: u8,
    pub lightness: u8,
    pub saturation: u8,
}

/// An item before a call writes it.
pub const NO_ITEM: SixelItem = SixelItem {
    kind: 0,
    count: 0,
    color: 0,
    hue: 0,
    pixels: 0,
    red: 0,
    green: 0,
    blue: 0,
    lightness: 0,
    saturation: 0,
};

/// A sixel image, but for its items.
#[repr(C)]
#[derive(Default)]
pub struct Sixel {
    pub pan: i64,
    pub pad: i64,
    pub grid_size: i64,
    pub pixel_width: u32,
    pub pixel_height: u32,
    pub width: u32,
    pub height: u32,
    pub has_grid_size: bool,
    pub has_pixel_width: bool,
    pub has_pixel_height: bool,
    pub background_is_transparent: bool,
    pub item_count: usize,
}

/// Reads a sixel image, and says how many of its items were written.
pub fn read_sixel(
    params: &[i64],
    data: &[u8],
    items: &mut [SixelItem],
) -> Result<(Sixel, usize), Error> {
    let mut sixel = Sixel::default();
    // SAFETY: the references are what the types ask for. Clause `written` says what `items` holds
    // after `DONE`, initialized all of it, clause `value` what `sixel` holds, and `refused` that
    // both are as they were after any other status.
    let status = unsafe {
        escape_stream_read_sixel(
            params.as_ptr(),
            params.len(),
            data.as_ptr(),
            data.len(),
            &mut sixel,
            items.as_mut_ptr(),
            items.len(),
        )
    };
    let count = sixel.item_count.min(items.len());
    done(status, (sixel, count))
}

/// Writes the command of a kind and fields, as much of it as fits. Returns its length.
pub fn write_osc(kind: u32, fields: &[Field], text: &[u8], out: &mut [u8]) -> Result<usize, Error> {
    let mut needed = 0;
    // SAFETY: the references are what the types ask for. Clause `written` says what `out` and
    // `needed` hold after `DONE`, and `refused` that both are as they were after any other status.
    let status = unsafe {
        escape_stream_write_osc(
            kind,
            fields.as_ptr(),
            fields.len(),
            text.as_ptr(),
            text.len(),
            out.as_mut_ptr(),
            out.len(),
            &mut needed,
        )
    };
    match status {
        NO_COMMAND | NOT_WRITABLE => Err(Error::NotWritable),
        _ => done(status, needed),
    }
}
