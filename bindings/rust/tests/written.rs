// SPDX-License-Identifier: MIT
//! The text that is written for the actions of a stream is the normal form of it.
mod rows;

use escape_stream::action::{
    Action, CSI, ControlCode, DeviceControlMode, EnterDeviceControlMode, Esc, Parser,
    ShortDeviceControl, encode,
};
use escape_stream::apc::{KittyImage, KittyImageData};
use escape_stream::dcs::{RgbColor, Sixel, SixelData};
use escape_stream::{Entry, Error, normal};
use rows::count_rows;
use std::str;

const LIMIT: usize = 1 << 24;

fn actions(stream: &[u8]) -> Vec<Action> {
    let mut parser = Parser::with_limits(LIMIT, LIMIT);
    let actions = parser.parse_as_vec(stream);
    assert_eq!(parser.failure(), None);
    actions
}

// Whether it is one of the actions that a stream can give, and that are not written.
fn is_exception(action: &Action) -> bool {
    match action {
        Action::Esc(it) => it.intermediate.is_none() && b"PX[]^_".contains(&it.control),
        Action::CSI(it) => it.parameters_truncated,
        Action::DeviceControl(DeviceControlMode::Enter(it)) => it.ignored_extra_intermediates,
        Action::DeviceControl(DeviceControlMode::Data(byte)) => *byte >= 0xa0,
        Action::DeviceControl(DeviceControlMode::ShortDeviceControl(it)) => {
            it.data.iter().any(|byte| *byte >= 0xa0)
        }
        _ => false,
    }
}

// Whether it is a string, or the end of one.
fn ends_string(action: &Action) -> bool {
    match action {
        Action::OperatingSystemCommand(_) | Action::Sixel(_) => true,
        Action::XtGetTcap(_) | Action::KittyImage(_) => true,
        Action::DeviceControl(mode) => matches!(
            mode,
            DeviceControlMode::Exit | DeviceControlMode::ShortDeviceControl(_)
        ),
        _ => false,
    }
}

const TERMINATOR: Action = Action::Esc(Esc {
    intermediate: None,
    control: b'\\',
});

// The text that is shown of each action, one after another, but for the terminators of strings.
fn shown(actions: &[Action]) -> String {
    let mut text = String::new();
    let mut is_ended = false;
    for action in actions {
        let is_end = is_ended && *action == TERMINATOR;
        if !is_end {
            text += &action.to_string();
        }
        is_ended = !is_end && ends_string(action);
    }
    text
}

#[test]
fn actions_of_rows() {
    let count = count_rows(|row| {
        let (Some(stream), None) = (row.bytes("stream"), row.bytes("limit")) else {
            return false;
        };
        let actions = actions(&stream);
        let enters =
            |it: &&Action| matches!(it, Action::DeviceControl(DeviceControlMode::Enter(_)));
        let exits = |it: &&Action| matches!(it, Action::DeviceControl(DeviceControlMode::Exit));
        let is_cut = actions.iter().filter(enters).count() != actions.iter().filter(exits).count();
        // The actions of a stream with many of them are written one at a time.
        if is_cut || actions.len() > 2000 || actions.iter().any(is_exception) {
            return false;
        }
        let text = normal(&stream).unwrap();
        assert!(
            encode(&actions).as_deref() == Ok(&text[..]),
            "{}",
            row.name()
        );
        assert!(shown(&actions).as_bytes() == text, "{}", row.name());
        true
    });
    assert!(count > 450, "{count} rows");
}

#[test]
fn what_would_not_read_back_is_not_written() {
    let csi = |params: &[Entry], control| {
        Action::CSI(CSI {
            params: params.into(),
            parameters_truncated: false,
            control,
        })
    };
    let esc = |control| {
        Action::Esc(Esc {
            intermediate: None,
            control,
        })
    };
    for action in [
        Action::Print('\x1b'),
        Action::PrintString("a\u{9b}1m".into()),
        Action::Control(ControlCode::CSI),
        Action::Control(ControlCode::Escape),
        Action::Control(ControlCode::ST),
        Action::XtGetTcap(Vec::new()),
        Action::DeviceControl(DeviceControlMode::Data(0x1b)),
        Action::DeviceControl(DeviceControlMode::Data(0xe9)),
        csi(&[1, 2].map(Entry::of_number), b'm'),
        csi(&[Entry::of_byte(0x1b)], b'm'),
        csi(&[Entry::of_number(-1)], b'm'),
        csi(&[], b'\n'),
        csi(&[Entry::of_byte(b';'); 257], b'm'),
        esc(b'['),
        esc(b'\x07'),
    ] {
        assert_eq!(action.to_bytes(), Err(Error::NotWritable), "{action:?}");
    }
}

#[test]
fn strings_of_devices() {
    let enter = |params: &[i64], intermediates: &[u8], byte| EnterDeviceControlMode {
        byte,
        params: params.into(),
        intermediates: intermediates.into(),
        ignored_extra_intermediates: false,
    };
    assert_eq!(enter(&[1, 0], b"?", b'p').to_string(), "\x1bP?1;0p");
    assert_eq!(enter(&[], b" ", b'p').to_string(), "\x1bP p");
    for it in [
        enter(&[], b"", b'q'),
        enter(&[-1], b"", b'p'),
        enter(&[], b"  !", b'p'),
    ] {
        assert_eq!(it.to_bytes(), Err(Error::NotWritable), "{it:?}");
    }
    let short = |data: &[u8]| ShortDeviceControl {
        params: vec![1],
        intermediates: b"$".to_vec(),
        byte: b'q',
        data: data.into(),
    };
    assert_eq!(short(b"m").to_string(), "\x1bP1$qm\x1b\\");
    assert_eq!(short(b"\x1b").to_bytes(), Err(Error::NotWritable));
    assert_eq!(short(b"\xe9").to_bytes(), Err(Error::NotWritable));
}

#[test]
fn steps_of_a_mode_are_a_group() {
    let found = actions(b"\x1bP1pab\x1b\\");
    assert_eq!(encode(&found).unwrap(), b"\x1bP1pab\x1b\\");
    assert_eq!(encode(&found[..2]), Err(Error::NotWritable));
    assert_eq!(encode(&found[1..]), Err(Error::NotWritable));
    let mixed = [found[0].clone(), Action::Print('a'), found[3].clone()];
    assert_eq!(encode(&mixed), Err(Error::NotWritable));
}

#[test]
fn a_terminator_is_written_once() {
    for stream in [
        &b"\x1b]0;a\x1b\\b"[..],
        b"\x1b]0;a\x1b\\\x1b\\b",
        b"\x1b\\a",
        b"\x1bP1p\x1b\\\x1b\\",
    ] {
        assert_eq!(encode(&actions(stream)).unwrap(), stream);
    }
    assert_eq!(
        encode(&actions(b"\x1b]0;a\x07b")).unwrap(),
        b"\x1b]0;a\x1b\\b"
    );
    assert_eq!(encode(&[]).unwrap(), b"");
}

#[test]
fn images_of_kitty() {
    let mut image = KittyImage::parse_apc(b"Gi=1;AAEC").unwrap().unwrap();
    assert_eq!(image.to_string(), "\x1b_Gi=1;AAEC\x1b\\");
    for (bytes, payload) in [
        (&b""[..], ""),
        (b"f", "Zg=="),
        (b"fo", "Zm8="),
        (b"foo", "Zm9v"),
        (b"\xff\xfe\xfd\xfc", "//79/A=="),
    ] {
        if let KittyImage::TransmitData { transmit, .. } = &mut image {
            transmit.data = KittyImageData::DirectBin(bytes.into());
        }
        assert_eq!(image.to_string(), format!("\x1b_Gi=1;{payload}\x1b\\"));
    }
    if let KittyImage::TransmitData { transmit, .. } = &mut image {
        transmit.data = KittyImageData::Direct("\x1b\\".into());
    }
    assert_eq!(image.to_bytes(), Err(Error::NotWritable));
}

#[test]
fn sixel_images() {
    let mut sixel = Sixel::parse(&[], b"\"4;3;7;8#1;2;50;100;33#2;1;9;8;7!12~-$@").unwrap();
    let text = "\x1bP;0q\"4;3;7;8#1;2;50;100;33#2;1;9;8;7!12~-$@\x1b\\";
    assert_eq!(sixel.to_string(), text);
    sixel.data = vec![SixelData::Data(64)];
    assert_eq!(sixel.to_bytes(), Err(Error::NotWritable));
    let rgb = RgbColor {
        red: 1,
        green: 0,
        blue: 0,
    };
    sixel.data = vec![SixelData::DefineColorMapRGB {
        color_number: 0,
        rgb,
    }];
    assert_eq!(sixel.to_bytes(), Err(Error::NotWritable));
    (sixel.data, sixel.pixel_width) = (Vec::new(), None);
    assert_eq!(sixel.to_bytes(), Err(Error::NotWritable));
    (sixel.pan, sixel.pixel_height) = (-1, None);
    assert_eq!(sixel.to_bytes(), Err(Error::NotWritable));
}

#[test]
fn what_is_shown_is_utf8() {
    assert_eq!(ControlCode::IND.to_string(), "\u{84}");
    assert_eq!(Action::Print('\u{e9}').to_string(), "\u{e9}");
    assert!(str::from_utf8(&encode(&actions(b"\x84\xff\xe9")).unwrap()).is_ok());
}
