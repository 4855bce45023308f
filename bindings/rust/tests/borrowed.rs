// SPDX-License-Identifier: MIT
//! Borrowed actions are those that `parse` gives: over the tables, and over random streams in
//! random chunks.
mod rows;
mod streams;

use escape_stream::action::{Action, Parser};
use escape_stream::borrowed::{self, DeviceControlMode, OperatingSystemCommand};
use rows::count_rows;
use std::mem::size_of;
use streams::Random;

// The actions that a stream gives in these chunks by `parse_borrowed`, each made owned, once it was
// compared with the one that `parse` gives.
fn compared<'a>(limit: usize, chunks: impl Iterator<Item = &'a [u8]>) -> Vec<Action> {
    let [mut owning, mut borrowing] = [(); 2].map(|()| Parser::with_limits(limit, limit));
    let (mut wanted, mut found) = (Vec::new(), Vec::new());
    for chunk in chunks {
        owning.parse(chunk, |action| wanted.push(action));
        borrowing.parse_borrowed(chunk, |action| {
            if let borrowed::Action::PrintString(text) = action {
                assert!(chunk.as_ptr_range().contains(&text.as_ptr()));
            }
            found.push(action.into_owned());
        });
        assert_eq!(owning.failure(), borrowing.failure());
        assert_eq!(found, wanted);
    }
    found
}

// How borrowed actions are shown and written, but for what is printed.
fn shown(stream: &[u8]) -> Vec<(String, Option<Vec<u8>>)> {
    let mut shown = Vec::new();
    Parser::with_limits(1 << 24, 1 << 24).parse_borrowed(stream, |action| {
        if !matches!(action, borrowed::Action::PrintString(_)) {
            shown.push((format!("{action:?}"), action.to_bytes().ok()));
        }
    });
    shown
}

#[test]
fn over_the_tables() {
    let count = count_rows(|row| {
        let Some(stream) = row.bytes("stream") else {
            return false;
        };
        let is_short = stream.len() < 10_000;
        let lengths = [stream.len().max(1), 1, 3];
        for length in &lengths[..if is_short { 3 } else { 1 }] {
            compared(1 << 24, stream.chunks(*length));
        }
        if is_short {
            let mut owned = Vec::new();
            Parser::with_limits(1 << 24, 1 << 24).parse(&stream, |action| match action {
                Action::PrintString(_) => {}
                Action::Print(c) if c != '\u{fffd}' => {}
                _ => owned.push((format!("{action:?}"), action.to_bytes().ok())),
            });
            let mut shown = shown(&stream);
            shown.retain(|it| !it.0.starts_with("Print(") || it.0.contains("\u{fffd}"));
            assert_eq!(shown, owned, "{}", row.name());
        }
        true
    });
    assert!(count > 450, "{count} rows");
}

#[test]
fn over_random_streams_in_random_chunks() {
    let mut random = Random(4);
    let mut count = 0;
    for _ in 0..100_000 {
        let stream = random.stream();
        let limit = if random.below(8) == 0 { 5 } else { 1 << 10 };
        let mut chunks = Vec::new();
        let mut rest = &stream[..];
        while !rest.is_empty() {
            let (chunk, after) = rest.split_at(random.below(rest.len().min(30) + 1));
            chunks.push(chunk);
            rest = after;
        }
        count += compared(limit, chunks.into_iter()).len();
    }
    assert!(count > 900_000, "{count} actions");
}

#[test]
fn actions_are_small_and_can_be_copied() {
    fn is_copy<T: Copy>() {}
    is_copy::<borrowed::Action<'_>>();
    assert!(size_of::<borrowed::Action<'_>>() <= 3 * size_of::<usize>());
}

#[test]
fn lists_are_of_values() {
    let mut seen = 0;
    let stream = b"\x1b]8;b=2:id=1;u\x1b\\\x1b]104;3;4\x07\x1b]777;a;b\x07\x1b]55;b;c\x07";
    Parser::new().parse_borrowed(stream, |action| {
        let borrowed::Action::OperatingSystemCommand(command) = action else {
            return;
        };
        seen += 1;
        match *command {
            OperatingSystemCommand::SetHyperlink(Some(link)) => {
                assert_eq!((link.uri, link.params.get("id")), ("u", Some("1")));
                assert_eq!(link.params.get("c"), None);
                assert_eq!(
                    link.params.iter().collect::<Vec<_>>(),
                    [("b", "2"), ("id", "1")]
                );
                assert_eq!(format!("{:?}", link.params), r#"{"b": "2", "id": "1"}"#);
            }
            OperatingSystemCommand::ResetColors(numbers) => {
                assert_eq!(numbers.iter().collect::<Vec<_>>(), [3, 4]);
                assert!(!numbers.is_empty());
            }
            OperatingSystemCommand::RxvtExtension(parts) => {
                assert_eq!(parts.into_iter().collect::<Vec<_>>(), ["a", "b"]);
            }
            OperatingSystemCommand::Unspecified(parts) => {
                let parts: Vec<&[u8]> = parts.iter().collect();
                assert_eq!(parts, [&b"55"[..], b"b", b"c"]);
            }
            other => panic!("{other:?}"),
        }
    });
    assert_eq!(seen, 4);
}

#[test]
fn strings_of_devices() {
    let mut seen = Vec::new();
    let stream = b"\x1bP1$qm\x1b\\\x1bP2;3|x\x1b\\\x1bPq!3~\x1b\\\x1bP+q544e;436f\x1b\\";
    Parser::new().parse_borrowed(stream, |action| match action {
        borrowed::Action::DeviceControl(DeviceControlMode::ShortDeviceControl(short)) => {
            seen.push(format!("{:?} {:?}", short.params, short.data));
        }
        borrowed::Action::DeviceControl(DeviceControlMode::Enter(enter)) => {
            seen.push(format!("{:?} {}", enter.params, char::from(enter.byte)));
        }
        borrowed::Action::Sixel(sixel) => seen.push(format!("{:?}", sixel.dimensions())),
        borrowed::Action::XtGetTcap(names) => seen.push(format!("{names:?}")),
        _ => {}
    });
    assert_eq!(seen, ["[1] [109]", "[2, 3] |", "(3, 6)", r#"["TN", "Co"]"#]);
}

#[test]
fn they_are_shown_as_they_are_written() {
    let mut text = String::new();
    Parser::new().parse_borrowed(
        b"a\x1b]2;t\x07\x1b[01mb\x1b_Ga=d,d=I,i=010\x1b\\",
        |action| {
            text += &action.to_string();
        },
    );
    assert_eq!(
        text,
        "a\x1b]2;t\x1b\\\x1b[1mb\x1b_Ga=d,d=I,i=10\x1b\\\x1b\\"
    );
}
