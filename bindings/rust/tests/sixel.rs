// SPDX-License-Identifier: MIT
//! Sixel data of all kinds. In a debug build each image is compared with what the library reads of
//! it in one call.
use escape_stream::dcs::{Sixel, SixelData};

const WORDS: [&[u8]; 20] = [
    b"#",
    b"!",
    b";",
    b"\"",
    b"$",
    b"-",
    b"?",
    b"~",
    b"@@@@",
    b"0",
    b"1",
    b"12",
    b"999",
    b"65536",
    b";2;",
    b"#1;2;3;4;5",
    b"!3~",
    b" ",
    b"\xe9",
    b"\x07",
];

#[test]
fn data_of_words() {
    let mut state = 1_u64;
    let mut next = |below: usize| {
        state = state
            .wrapping_mul(6_364_136_223_846_793_005)
            .wrapping_add(1);
        (state >> 33) as usize % below
    };
    for _ in 0..100_000 {
        let mut data = Vec::new();
        for _ in 0..next(16) {
            // Raster attributes come seldom: after the first part of data the library reads all.
            let word = WORDS[next(WORDS.len())];
            if word != b"\"" || next(8) == 0 {
                data.extend_from_slice(word);
            }
        }
        let sixel = Sixel::parse(&[next(10) as i64, 1], &data).unwrap();
        assert!(sixel.data.len() <= data.len(), "{}", data.escape_ascii());
    }
}

#[test]
fn commands_between_pixels() {
    let parse = |data: &[u8]| Sixel::parse(&[], data).unwrap().data;
    let (color, repeat) = (SixelData::SelectColorMapEntry, |repeat_count| {
        SixelData::Repeat {
            repeat_count,
            data: 63,
        }
    });
    assert_eq!(parse(b"?#3!2~"), [SixelData::Data(0), color(3), repeat(2)]);
    assert_eq!(
        parse(b"?#3$"),
        [SixelData::Data(0), color(3), SixelData::CarriageReturn]
    );
    assert_eq!(
        parse(b"?!~-"),
        [SixelData::Data(0), repeat(1), SixelData::NewLine]
    );
    assert_eq!(
        parse(b"?!2-~"),
        [SixelData::Data(0), SixelData::NewLine, SixelData::Data(63)]
    );
    assert_eq!(
        parse(b"?#99999~"),
        [SixelData::Data(0), color(u16::MAX), SixelData::Data(63)]
    );
    assert_eq!(parse(b"?#7"), [SixelData::Data(0), color(7)]);
    let sized = Sixel::parse(&[], b"\"4;3;7;8~").unwrap();
    assert_eq!((sized.pan, sized.pad, sized.dimensions()), (4, 3, (7, 8)));
    assert_eq!(parse(b"~\"1;1;99999;99999?"), [SixelData::Data(0)]);
}
