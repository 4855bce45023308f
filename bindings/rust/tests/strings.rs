// SPDX-License-Identifier: MIT
//! Finds each control string of docs/FUNCTIONS.md under its name.
use escape_stream::{ControlString, Event, Parser};
use std::{fs, path::Path};

// The cells of each row of the page whose sequence begins with this word.
fn rows(opener: &str) -> Vec<Vec<String>> {
    let page = Path::new(env!("CARGO_MANIFEST_DIR")).join("../../docs/FUNCTIONS.md");
    let page = fs::read_to_string(page).unwrap().replace("\\|", "\u{0}");
    let cells = |line: &str| -> Vec<String> {
        line.split('|')
            .map(|it| it.trim().replace('\u{0}', "|"))
            .collect()
    };
    let rows = page.lines().map(cells);
    rows.filter(|it| it.len() > 2 && it[1].starts_with(&format!("`{opener} ")))
        .collect()
}

// The words of a sequence on the page after the first, with `..` for what may come.
fn words(shape: &str) -> Vec<&str> {
    shape.trim_matches('`').split(' ').skip(1).collect()
}

fn check(found: Option<ControlString>, name: &str, words: &str) {
    let found = found.unwrap_or_else(|| panic!("{name}"));
    assert_eq!(found.name(), name);
    assert_eq!(found.words(), words.split("; alone:").next().unwrap());
    assert_eq!(ControlString::named(name), Some(found));
}

#[test]
fn each_operating_system_command_of_the_page_is_found() {
    let table = rows("OSC");
    for row in &table {
        let text: String = words(&row[1])
            .into_iter()
            .filter(|it| *it != "..")
            .collect();
        check(ControlString::of_osc(text.as_bytes()), &row[2], &row[3]);
        check(
            ControlString::of_osc(format!("{text};x").as_bytes()),
            &row[2],
            &row[3],
        );
        let number = text.split(';').next().unwrap().parse().ok();
        assert_eq!(ControlString::named(&row[2]).unwrap().osc_number(), number);
    }
    assert_eq!(
        table.len(),
        ControlString::all()
            .filter(|it| it.name().starts_with("OSC"))
            .count()
    );
}

#[test]
fn each_device_control_string_of_the_page_is_found() {
    let table = rows("DCS");
    for row in &table {
        let words = words(&row[1]);
        let is_start = |it: &&str| it.len() > 1 && !it.bytes().all(|byte| byte.is_ascii_digit());
        let data = words
            .iter()
            .copied()
            .filter(|it| *it != "..")
            .find(is_start);
        let bytes = words
            .iter()
            .filter(|it| it.len() == 1 && !it.as_bytes()[0].is_ascii_digit());
        let bytes: Vec<u8> = bytes.map(|it| it.as_bytes()[0]).collect();
        let digits = words
            .iter()
            .copied()
            .find(|it| it.bytes().all(|it| it.is_ascii_digit()));
        let (last, marks) = bytes.split_last().unwrap();
        let (digits, data) = (digits.unwrap_or(""), data.unwrap_or(""));
        let found = ControlString::of_dcs(digits.as_bytes(), marks, *last, data.as_bytes());
        check(found, &row[2], &row[3]);
    }
    assert!(table.len() > 30);
}

#[test]
fn each_application_program_command_of_the_page_is_found() {
    let table = rows("APC");
    for row in &table {
        let text: String = words(&row[1])
            .into_iter()
            .filter(|it| *it != "..")
            .collect();
        check(ControlString::of_apc(text.as_bytes()), &row[2], &row[3]);
    }
    assert_eq!(table.len(), 5);
}

#[test]
fn names_are_of_one_string_each() {
    for each in ControlString::all() {
        assert_eq!(ControlString::named(each.name()), Some(each));
        assert!(!each.words().is_empty());
    }
    assert!(ControlString::all().len() > 200);
}

// xterm's list, "Operating System Commands", and kitty's graphics protocol: forms of a text that
// mean the same.
#[test]
fn spellings_of_one_command_have_one_name() {
    for (text, name) in [
        ("52;c;YQ==", "OSC 52"),
        ("052;c;YQ==", "OSC 52"),
        ("133;D;1;aid=a", "OSC 133;D"),
        ("133;Dx", "OSC 133"),
        ("9;4;1;50", "OSC 9;4;1"),
        ("9;40", "OSC 9"),
        ("1337;File=name=YQ==:YQ==", "OSC 1337;File"),
        ("Ltitle", "OSC L"),
    ] {
        assert_eq!(
            ControlString::of_osc(text.as_bytes()).unwrap().name(),
            name,
            "{text}"
        );
    }
    for text in ["", ";", "4711;x", "52c", "x", "99999999999;x"] {
        assert_eq!(ControlString::of_osc(text.as_bytes()), None, "{text}");
    }
    for (text, name) in [
        ("Ga=d,d=a", "kitty image a=d"),
        ("Gi=1,a=f;AAAA", "kitty image a=f"),
        ("Ga=dd", "kitty image"),
        ("G;a=d", "kitty image"),
    ] {
        assert_eq!(
            ControlString::of_apc(text.as_bytes()).unwrap().name(),
            name,
            "{text}"
        );
    }
    assert_eq!(ControlString::of_apc(b"title"), None);
}

// The events of a stream have what the calls take.
#[test]
fn events_have_names() {
    let mut names = Vec::new();
    let stream = b"\x1b]104\x07\x1bP1$r0m\x1b\\\x1bP$qm\x1b\\\x1b_Ga=d\x1b\\\x1bP2$ux\x1b\\";
    Parser::new()
        .advance(stream, |event| {
            names.extend(match event {
                Event::Osc(text) => ControlString::of_osc(text),
                Event::Dcs {
                    parameters,
                    intermediates,
                    byte,
                    ..
                } => ControlString::of_dcs(parameters, intermediates, byte, b""),
                Event::Apc(text) => ControlString::of_apc(text),
                _ => None,
            });
        })
        .unwrap();
    let names: Vec<&str> = names.iter().map(|it| it.name()).collect();
    assert_eq!(
        names,
        [
            "OSC 104",
            "DECRPSS",
            "DECRQSS",
            "kitty image a=d",
            "DECTABSR"
        ]
    );
}
