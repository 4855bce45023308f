// SPDX-License-Identifier: MIT
//! Checks the actions of streams against the tables, which have those of each.
mod rows;

use escape_stream::StringEnd;
use escape_stream::action::{Action, Parser};
use rows::{Row, count_rows, unescaped};

// The actions of a stream, in chunks of a length, as the tables write them, but for sequences.
fn actions(stream: &[u8], length: usize) -> Vec<String> {
    let mut found = Vec::new();
    let mut parser = Parser::with_limits(1 << 24, 1 << 24);
    for chunk in stream.chunks(length) {
        parser.parse(chunk, |action| note(&action, &mut found));
    }
    assert_eq!(parser.failure(), None);
    found
}

// Notes an action, and a run of characters one by one.
fn note(action: &Action, found: &mut Vec<String>) {
    match action {
        Action::Esc(_) | Action::CSI(_) => {}
        Action::PrintString(text) => found.extend(text.chars().map(|c| format!("Print({c:?})"))),
        _ => found.push(format!("{action:?}")),
    }
}

// The actions of a row. A line `kept` is a command that is kept as its parts.
fn wanted(row: &Row) -> Vec<String> {
    let mut actions: Vec<String> = Vec::new();
    for (word, text) in row.lines() {
        match word {
            "action" => actions.push(text),
            "more" => actions.last_mut().unwrap().push_str(&text),
            "kept" => {
                let bytes = unescaped(&text);
                let parts: Vec<_> = bytes.split(|byte| *byte == b';').collect();
                actions.push(format!("OperatingSystemCommand(Unspecified({parts:?}))"));
            }
            _ => {}
        }
    }
    actions.retain(|it| !it.starts_with("Esc(") && !it.starts_with("CSI("));
    for it in &mut actions {
        let is_file = it.contains("(File(ITermFileData {");
        if is_file || it.starts_with("Sixel(") || it.starts_with("KittyImage(") {
            *it = it.replace("content: ", "data: ");
        }
    }
    actions
}

#[test]
fn actions_are_as_in_the_tables() {
    let count = count_rows(|row| {
        let (Some(stream), None) = (row.bytes("stream"), row.bytes("limit")) else {
            return false;
        };
        let wanted = wanted(row);
        if wanted.is_empty() {
            return false;
        }
        // In chunks only where there are not millions of them.
        let lengths = [stream.len().max(1), 1, 3];
        for length in &lengths[..if stream.len() < 10_000 { 3 } else { 1 }] {
            assert_eq!(actions(&stream, *length), wanted, "{}", row.name());
        }
        true
    });
    assert!(count > 250, "{count} rows");
}

#[test]
fn longer_data_is_passed_over() {
    let mut parser = Parser::with_limits(8, 3);
    let found = parser.parse_as_vec(b"a\x1bPq~~~~\x1b\\b\x1bPq~~~\x1b\\");
    let images = found.iter().filter(|it| matches!(it, Action::Sixel(_)));
    assert_eq!(images.count(), 1);
}

#[test]
fn what_is_printed_is_joined() {
    let found = Parser::new().parse_as_vec(b"caf\xff\xc3\xa9\x1b[1mx");
    assert_eq!(found[0], Action::PrintString("caf\u{fffd}\u{e9}".into()));
    assert!(matches!(&found[1], Action::CSI(it) if it.function().unwrap().name() == "SGR"));
    assert_eq!(found[2], Action::Print('x'));
}

#[test]
fn strings_come_with_their_ends() {
    let stream = b"\x1b]2;a\x07\x1b]2;b\x18\x1b_Ga=q\x1b\\\x1bP+q61\xc2\x9c\x1bPqx\x1a\x1b[m";
    let wanted = [
        Some(StringEnd::Bell),
        Some(StringEnd::Cancelled),
        None,
        Some(StringEnd::Escape),
        None,
        Some(StringEnd::C1(0x9c)),
        Some(StringEnd::Cancelled),
        None,
        None,
    ];
    for length in 1..=stream.len() {
        let mut parser = Parser::new();
        let (mut actions, mut ends) = (Vec::new(), Vec::new());
        for chunk in stream.chunks(length) {
            parser.parse_with_ends(chunk, |action, end| {
                actions.push(action);
                ends.push(end);
            });
        }
        assert_eq!(ends, wanted, "{actions:?}");
        assert_eq!(actions, Parser::new().parse_as_vec(stream));
    }
}
