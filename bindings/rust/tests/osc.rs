// SPDX-License-Identifier: MIT
//! Checks what commands say against the tables of streams, which have the actions of each.
mod rows;

use escape_stream::osc::{
    ChangeColorPair, Color16, ColorOrQuery, ITermDimension, ITermFileData, ITermProprietary,
    OperatingSystemCommand, Selection,
};
use escape_stream::{Error, Event, Parser};
use rows::{Row, count_rows, unescaped};

// No string of the tables is longer.
const LIMIT: usize = 1 << 24;

// The commands of a stream, as the tables write actions.
fn commands(stream: &[u8]) -> Vec<String> {
    let mut found = Vec::new();
    let mut parser = Parser::with_limit(LIMIT);
    parser
        .advance(stream, |event| {
            if let Event::Osc(text) = event {
                let command = OperatingSystemCommand::parse(text).unwrap();
                assert_reads_back(&command);
                found.push(format!("OperatingSystemCommand({command:?})"));
            }
        })
        .unwrap();
    found
}

// The text that is written for a command reads back as it.
fn assert_reads_back(command: &OperatingSystemCommand) {
    let bytes = command.to_bytes().unwrap();
    let text = bytes
        .strip_prefix(b"\x1b]")
        .and_then(|text| text.strip_suffix(b"\x1b\\"))
        .unwrap();
    assert_eq!(OperatingSystemCommand::parse(text).as_ref(), Ok(command));
}

// The commands among the actions of a row. A line `kept` is a command that is kept as its parts.
fn wanted(row: &Row) -> Vec<String> {
    let mut actions: Vec<String> = Vec::new();
    for (word, text) in row.lines() {
        match word {
            "action" => actions.push(text),
            "more" => actions.last_mut().unwrap().push_str(&text),
            "kept" => {
                let bytes = unescaped(&text);
                let parts: Vec<_> = bytes.split(|byte| *byte == b';').collect();
                actions.push(format!("OperatingSystemCommand(Unspecified({parts:?}))"));
            }
            _ => {}
        }
    }
    actions.retain(|it| it.starts_with("OperatingSystemCommand("));
    for it in &mut actions {
        if it.contains("(File(ITermFileData {") {
            *it = it.replace("content: ", "data: ");
        }
    }
    actions
}

#[test]
fn commands_are_as_in_the_tables() {
    let count = count_rows(|row| {
        let (Some(stream), None) = (row.bytes("stream"), row.bytes("limit")) else {
            return false;
        };
        let wanted = wanted(row);
        if !wanted.is_empty() {
            assert!(commands(&stream) == wanted, "{}", row.name());
        }
        !wanted.is_empty()
    });
    assert!(count > 150, "{count} rows");
}

#[test]
fn commands_that_the_tables_lack_read_back() {
    let file = ITermFileData {
        name: Some("a;b".into()),
        size: Some(usize::MAX),
        width: ITermDimension::Percent(i64::MIN),
        height: ITermDimension::Pixels(i64::MAX),
        preserve_aspect_ratio: false,
        inline: true,
        do_not_move_cursor: true,
        data: (0..=255).collect(),
    };
    let colors = (0..1000).map(|n| ChangeColorPair {
        palette_index: 7,
        color: ColorOrQuery::Color(Color16 {
            red: n,
            green: 65535,
            blue: 0,
        }),
    });
    for command in [
        OperatingSystemCommand::ITermProprietary(ITermProprietary::File(Box::new(file))),
        OperatingSystemCommand::ChangeColorNumber(colors.collect()),
        OperatingSystemCommand::SetSelection(Selection::CLIPBOARD, "\u{1b}\0é;".into()),
        OperatingSystemCommand::RxvtExtension(vec!["notify".into(), String::new()]),
    ] {
        assert_reads_back(&command);
    }
}

#[test]
fn what_would_not_read_back_is_not_written() {
    for command in [
        OperatingSystemCommand::SetWindowTitle("\u{1b}\\".into()),
        OperatingSystemCommand::SetWindowTitle("\u{9c}".into()),
        OperatingSystemCommand::SystemNotification("a;b".into()),
        OperatingSystemCommand::QuerySelection(Selection::NONE),
        OperatingSystemCommand::Unspecified(vec![b"2".to_vec(), b"title".to_vec()]),
        OperatingSystemCommand::ITermProprietary(ITermProprietary::ReportVariable("a".into())),
    ] {
        assert_eq!(command.to_bytes(), Err(Error::NotWritable), "{command:?}");
    }
}

const WORDS: [&str; 24] = [
    "0",
    "1",
    "2",
    "8",
    "133",
    "7",
    "id",
    "aid",
    "A",
    "B",
    "C",
    "D",
    "I",
    "L",
    "N",
    "P",
    ";",
    ";",
    ";",
    "=",
    ":",
    "http://e.com/",
    "\u{e9}",
    "\u{7f}",
];

// Texts of these words one after another. In a debug build each that is read at once is compared
// with what the library reads.
#[test]
fn texts_of_words() {
    let mut state = 1_u64;
    let mut next = |below: usize| {
        state = state
            .wrapping_mul(6_364_136_223_846_793_005)
            .wrapping_add(1);
        (state >> 33) as usize % below
    };
    for round in 0..100_000 {
        let heads = ["", "0;", "8;;", "8;id=", "133;", "133;A;aid="];
        let mut text = Vec::from(heads[next(heads.len())]);
        for _ in 0..next(6) {
            text.extend(WORDS[next(WORDS.len())].bytes());
        }
        if round % 16 == 0 {
            text.push(next(256) as u8);
        }
        assert!(
            OperatingSystemCommand::parse(&text).is_ok(),
            "{}",
            text.escape_ascii()
        );
    }
}

#[rustfmt::skip]
const VALUES: [(&str, &str, Option<&str>); 18] = [
    ("133;C;cmdline_url=ls%20-l", "cmdline_url", Some("ls%20-l")),
    ("133;C;cmdline_url=ls%20-l", "cmdline", None),
    ("133;C;cmdline_url=ls%20-l", "", None),
    ("133;A;redraw=0;click_events=1", "redraw", Some("0")),
    ("133;A;redraw=0;click_events=1", "click_events", Some("1")),
    ("133;A;redraw=0;click_events=1", "click_event", None),
    ("133;D", "", None),
    ("133;D;", "", None),
    ("133;D;1", "", Some("1")),
    ("133;D;0;err=CANCEL;aid=7", "", Some("0")),
    ("133;D;0;err=CANCEL;aid=7", "err", Some("CANCEL")),
    ("133;D;err=CANCEL", "", None),
    ("133;D;1;err=", "err", Some("")),
    ("133;D;1;err", "err", None),
    ("133;D;aid=1;aid=a=b", "aid", Some("a=b")),
    ("aid=1;aid=2", "aid", None),
    ("133", "", None),
    ("", "", None),
];

#[test]
fn keys_of_prompts() {
    for (text, key, wanted) in VALUES {
        let value = escape_stream::prompt_value(text.as_bytes(), key);
        assert_eq!(value, wanted.map(str::as_bytes), "{text} {key}");
    }
}
