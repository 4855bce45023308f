// SPDX-License-Identifier: MIT
//! How the data of a sixel image is read.
use super::{Sixel, SixelData};
use crate::fields::{Room, make_room};
use crate::{Error, ffi};
use alloc::vec::Vec;

// Room for so many items is kept from one image to the next.
const KEPT_ROOM: usize = 1 << 14;

/// The image of these parameters and this data.
///
/// Six pixels, `$` and `-` are bytes of their own. These, a colour that is selected and a repeat
/// come most often: they are read here. The library reads what else is between bytes of their own,
/// each part up to the first such byte, which may belong to it: after such a byte no command is
/// open. A `"` in a later part than the first can drop what came before: then the library reads
/// all. In debug builds it does so each time, and the two are compared.
pub fn read_sixel(params: &[i64], data: &[u8], room: &mut Room) -> Result<Sixel, Error> {
    let first = part(data);
    let whole = if data[first..].contains(&b'"') {
        data.len()
    } else {
        first
    };
    let mut sixel = read_whole(params, &data[..whole], room)?;
    read_on(&data[whole..], &mut sixel.data, room)?;
    debug_assert!(read_whole(params, data, room).map_or(true, |it| it == sixel));
    room.items.truncate(KEPT_ROOM);
    room.items.shrink_to(KEPT_ROOM);
    Ok(sixel)
}

// How many bytes there are up to the first that is one of its own, and with it.
fn part(data: &[u8]) -> usize {
    let is_alone = |byte: &u8| matches!(byte, b'?'..=b'~' | b'$' | b'-');
    let place = data.iter().position(is_alone);
    place.map_or(data.len(), |place| place + 1)
}

// Appends the items of data after a byte of its own.
fn read_on(data: &[u8], items: &mut Vec<SixelData>, room: &mut Room) -> Result<(), Error> {
    let mut rest = data;
    while let Some(first) = rest.first() {
        let count = match first {
            b'?'..=b'~' => push_pixels(rest, items)?,
            b'$' => push(SixelData::CarriageReturn, items)?,
            b'-' => push(SixelData::NewLine, items)?,
            _ => match short(rest) {
                Some((color, repeat, count)) => {
                    let both = color.into_iter().chain(repeat);
                    reserve(items, 2)?;
                    items.extend(both);
                    count
                }
                None => push_part(rest, items, room)?,
            },
        };
        rest = &rest[count..];
    }
    Ok(())
}

// The selected colour, the repeat, or both, that come first, and how many bytes they have. None
// if numbers have more than four digits or are 0.
fn short(data: &[u8]) -> Option<(Option<SixelData>, Option<SixelData>, usize)> {
    let (mut rest, mut color) = (data, None);
    if let [b'#', more @ ..] = data {
        let (number, after) = few_digits(more)?;
        (rest, color) = (after, Some(SixelData::SelectColorMapEntry(number)));
    }
    let mut repeat = None;
    match rest {
        [b'!', more @ ..] => {
            let (number, after) = few_digits(more).filter(|it| it.0 > 0)?;
            let (pixels @ b'?'..=b'~', after) = after.split_first()? else {
                return None;
            };
            rest = after;
            repeat = Some(SixelData::Repeat {
                repeat_count: number.into(),
                data: pixels - b'?',
            });
        }
        [b'?'..=b'~' | b'$' | b'-', ..] => color.as_ref().map(|_| ())?,
        _ => return None,
    }
    Some((color, repeat, data.len() - rest.len()))
}

// The number of one to four digits, and what follows it, which is no digit.
fn few_digits(data: &[u8]) -> Option<(u16, &[u8])> {
    let count = data.iter().position(|byte| !byte.is_ascii_digit())?;
    let (digits, rest) = data.split_at(count);
    let with_digit = |number, digit: &u8| number * 10 + u16::from(digit - b'0');
    matches!(count, 1..=4).then(|| (digits.iter().fold(0, with_digit), rest))
}

// Appends an item of one byte, and returns how many bytes it has.
fn push(item: SixelData, items: &mut Vec<SixelData>) -> Result<usize, Error> {
    reserve(items, 1)?;
    items.push(item);
    Ok(1)
}

// Appends the run of pixels that comes first, and returns how many bytes it has.
fn push_pixels(data: &[u8], items: &mut Vec<SixelData>) -> Result<usize, Error> {
    let is_other = |byte: &u8| !matches!(byte, b'?'..=b'~');
    let count = data.iter().position(is_other).unwrap_or(data.len());
    reserve(items, count)?;
    let pixels = data[..count].iter();
    items.extend(pixels.map(|byte| SixelData::Data(byte - b'?')));
    Ok(count)
}

// Appends what the library reads of the part that comes first, and returns how many bytes it has.
fn push_part(data: &[u8], items: &mut Vec<SixelData>, room: &mut Room) -> Result<usize, Error> {
    let count = part(data);
    let (_, rows) = read_raw(&[], &data[..count], room)?;
    push_rows(rows, items)?;
    Ok(count)
}

fn push_rows(rows: &[ffi::SixelItem], items: &mut Vec<SixelData>) -> Result<(), Error> {
    reserve(items, rows.len())?;
    for row in rows {
        items.push(SixelData::of(row).ok_or(Error::Failed)?);
    }
    Ok(())
}

fn reserve(items: &mut Vec<SixelData>, more: usize) -> Result<(), Error> {
    items.try_reserve(more).map_err(|_| Error::Memory)
}

// The library's reading of parameters and data.
fn read_raw<'a>(
    params: &[i64],
    data: &[u8],
    room: &'a mut Room,
) -> Result<(ffi::Sixel, &'a [ffi::SixelItem]), Error> {
    let rows = &mut room.items;
    make_room(rows, data.len().min(KEPT_ROOM), ffi::NO_ITEM)?;
    let (mut raw, mut count) = ffi::read_sixel(params, data, rows)?;
    if count < raw.item_count {
        make_room(rows, raw.item_count, ffi::NO_ITEM)?;
        (raw, count) = ffi::read_sixel(params, data, rows)?;
    }
    Ok((raw, rows.get(..count).unwrap_or_default()))
}

fn read_whole(params: &[i64], data: &[u8], room: &mut Room) -> Result<Sixel, Error> {
    let mut items = room.pixels();
    let (raw, rows) = read_raw(params, data, room)?;
    push_rows(rows, &mut items)?;
    let sixel = Sixel {
        pan: raw.pan,
        pad: raw.pad,
        pixel_width: raw.has_pixel_width.then_some(raw.pixel_width),
        pixel_height: raw.has_pixel_height.then_some(raw.pixel_height),
        background_is_transparent: raw.background_is_transparent,
        horizontal_grid_size: raw.has_grid_size.then_some(raw.grid_size),
        data: items,
    };
    debug_assert_eq!(sixel.dimensions(), (raw.width, raw.height));
    Ok(sixel)
}
