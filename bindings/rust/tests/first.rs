// SPDX-License-Identifier: MIT
//! The first actions of streams, and actions one after another, are those that come byte by byte.
mod rows;

use escape_stream::action::{Action, ControlCode, Parser};
use rows::count_rows;

// Byte by byte is dear.
const MOST: usize = 3000;

fn parser() -> Parser {
    Parser::with_limits(1 << 14, 1 << 14)
}

// The actions of a byte.
fn of_byte(parser: &mut Parser, byte: u8) -> Vec<Action> {
    let mut actions = Vec::new();
    parser.parse(&[byte], |action| actions.push(action));
    actions
}

// The first action by bytes, and how many these are.
fn first_by_bytes(parser: &mut Parser, bytes: &[u8]) -> Option<(Action, usize)> {
    let mut found = bytes.iter().zip(1..);
    found.find_map(|(byte, count)| {
        let first = of_byte(parser, *byte).into_iter().next()?;
        Some((first, count))
    })
}

// The actions up to where no sequence is unfinished, by bytes; `events` says where that is.
fn whole_by_bytes(
    parser: &mut Parser,
    events: &mut escape_stream::Parser,
    bytes: &[u8],
) -> Option<(Vec<Action>, usize)> {
    let mut actions = Vec::new();
    for (byte, count) in bytes.iter().zip(1..) {
        actions.extend(of_byte(parser, *byte));
        events.advance(&[*byte], |_| {}).unwrap();
        if !actions.is_empty() && events.is_ground() {
            return Some((actions, count));
        }
    }
    None
}

#[test]
fn first_actions_of_rows() {
    let count = count_rows(|row| {
        let Some(stream) = row.bytes("stream").filter(|it| it.len() < MOST) else {
            return false;
        };
        let (mut whole, mut by_bytes) = (parser(), parser());
        let mut rest = &stream[..];
        loop {
            let found = whole.parse_first(rest);
            assert_eq!(found, first_by_bytes(&mut by_bytes, rest), "{}", row.name());
            match found {
                Some((_, count)) => rest = &rest[count..],
                None => return true,
            }
        }
    });
    assert!(count > 400, "{count} rows");
}

#[test]
fn first_whole_actions_of_rows() {
    let count = count_rows(|row| {
        let Some(stream) = row.bytes("stream").filter(|it| it.len() < MOST) else {
            return false;
        };
        let (mut whole, mut by_bytes) = (parser(), parser());
        let mut events = escape_stream::Parser::with_limit(1 << 14);
        let mut rest = &stream[..];
        loop {
            let found = whole.parse_first_as_vec(rest);
            let wanted = whole_by_bytes(&mut by_bytes, &mut events, rest);
            assert_eq!(found, wanted, "{}", row.name());
            match found {
                Some((_, count)) => rest = &rest[count..],
                None => return true,
            }
        }
    });
    assert!(count > 400, "{count} rows");
}

#[test]
fn actions_one_after_another() {
    let count = count_rows(|row| {
        let Some(stream) = row.bytes("stream").filter(|it| it.len() < MOST) else {
            return false;
        };
        for length in [1, 7, stream.len().max(1)] {
            let mut parser = parser();
            let mut found = Vec::new();
            for chunk in stream.chunks(length) {
                parser
                    .actions(chunk)
                    .for_each(|it| it.append_to(&mut found));
            }
            let mut wanted = Vec::new();
            let mut by_bytes = self::parser();
            for byte in &stream {
                for action in of_byte(&mut by_bytes, *byte) {
                    action.append_to(&mut wanted);
                }
            }
            assert_eq!(found, wanted, "{} by {length}", row.name());
        }
        true
    });
    assert!(count > 400, "{count} rows");
}

#[test]
fn what_is_not_taken_is_left() {
    let mut parser = Parser::new();
    let mut actions = parser.actions(b"ab\ncd");
    assert_eq!(actions.next(), Some(Action::PrintString("ab".into())));
    assert_eq!(actions.next(), Some(Action::Control(ControlCode::LineFeed)));
    let rest = actions.rest();
    assert_eq!(rest, b"cd");
    assert_eq!(
        parser.parse_as_vec(rest),
        [Action::PrintString("cd".into())]
    );
}

#[test]
fn further_actions_of_the_last_byte() {
    let stream = b"\x1b]0;a\x18b";
    let (first, count) = Parser::new().parse_first(stream).unwrap();
    assert!(matches!(first, Action::OperatingSystemCommand(_)));
    assert_eq!(count, 6);
    let (actions, count) = Parser::new().parse_first_as_vec(stream).unwrap();
    assert_eq!((actions.len(), count), (2, 6));
    assert_eq!(actions[1], Action::Control(ControlCode::Cancel));
    let found: Vec<_> = Parser::new().actions(stream).collect();
    assert_eq!(found.len(), 3);
}

#[test]
fn a_sequence_in_chunks() {
    let mut parser = Parser::new();
    assert_eq!(parser.parse_first(b"\x1b[1"), None);
    let (first, count) = parser.parse_first(b"mab").unwrap();
    assert!(matches!(first, Action::CSI(_)));
    assert_eq!(count, 1);
    assert_eq!(parser.parse_first_as_vec(b"\x1bP1p"), None);
    assert_eq!(parser.parse_first_as_vec(b""), None);
    let (actions, count) = parser.parse_first_as_vec(b"xy\x1b\\z").unwrap();
    assert_eq!((actions.len(), count), (4, 4));
}
