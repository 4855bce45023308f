// SPDX-License-Identifier: MIT
//! Finds each function of docs/FUNCTIONS.md under its name, and compares the tables with those of
//! the proved library over all sequences.
use escape_stream::{C0, ControlFunction, Effect, EscapeFunction};
use std::ffi::{CStr, c_char};
use std::{fs, path::Path};

#[repr(C)]
struct Row {
    name: [c_char; 16],
    phrase: [c_char; 80],
    changes_screen: bool,
    is_answered: bool,
}

extern "C" {
    fn escape_stream_function(p: u8, i: u8, last: u8, count: usize, out: *mut Row) -> bool;
    fn escape_stream_escape_function(i: u8, last: u8, out: *mut Row) -> bool;
    fn escape_stream_control_function(code: u8, out: *mut Row) -> bool;
}

// The facts about a function: its name, its words, whether it changes the screen alone, and whether
// it is answered.
type Said = (String, String, bool, bool);

// The row that a call of the library writes.
fn written(call: impl FnOnce(*mut Row) -> bool) -> Option<Said> {
    let mut row = Row {
        name: [0; 16],
        phrase: [0; 80],
        changes_screen: false,
        is_answered: false,
    };
    call(&mut row).then(|| {
        // SAFETY: each text ends with a 0 within its room.
        let text = |it: &[c_char]| {
            unsafe { CStr::from_ptr(it.as_ptr()) }
                .to_str()
                .unwrap()
                .into()
        };
        let flags = (row.changes_screen, row.is_answered);
        (text(&row.name), text(&row.phrase), flags.0, flags.1)
    })
}

fn said(name: &str, words: &str, effect: Effect) -> Said {
    let flags = (effect == Effect::Screen, effect == Effect::Answered);
    (name.into(), words.into(), flags.0, flags.1)
}

#[test]
fn all_sequences_are_as_in_the_library() {
    let intermediates = || [0].into_iter().chain(b' '..=b'/');
    for last in 0..=255 {
        for byte in intermediates() {
            // SAFETY: the call writes to the row alone.
            let theirs = written(|row| unsafe { escape_stream_escape_function(byte, last, row) });
            let ours = EscapeFunction::of((byte != 0).then_some(byte), last);
            assert_eq!(
                ours.map(|it| said(it.name(), it.words(), it.effect())),
                theirs
            );
            for (prefix, count) in [0, b'<', b'=', b'>', b'?']
                .into_iter()
                .flat_map(|prefix| [0, 1, 2, 9].map(|count| (prefix, count)))
            {
                // SAFETY: the call writes to the row alone.
                let theirs = written(|row| unsafe {
                    escape_stream_function(prefix, byte, last, count, row)
                });
                let marks = [byte];
                let marks = if byte == 0 { &[][..] } else { &marks };
                let ours = ControlFunction::of((prefix != 0).then_some(prefix), marks, count, last);
                assert_eq!(
                    ours.map(|it| said(it.name(), it.words(), it.effect())),
                    theirs
                );
            }
        }
    }
}

#[test]
fn all_controls_are_as_in_the_library() {
    for code in 0..=255 {
        // SAFETY: the call writes to the row alone.
        let theirs = written(|row| unsafe { escape_stream_control_function(code, row) });
        let ours = C0::of(code);
        assert_eq!(
            ours.map(|it| said(it.name(), it.words(), it.effect())),
            theirs
        );
    }
}

// The characters of a sequence on the page after its first word, and whether more follow.
fn characters(shape: &str) -> (Vec<u8>, bool) {
    let code = shape
        .strip_prefix("`` ")
        .and_then(|it| it.strip_suffix(" ``"));
    let code = code.unwrap_or_else(|| &shape[1..shape.len() - 1]);
    let words: Vec<&str> = code.split(' ').skip(1).collect();
    let bytes = words.iter().filter(|it| **it != "..").map(|it| match *it {
        "SP" => b' ',
        it => it.as_bytes()[it.len() - 1],
    });
    (bytes.collect(), words.contains(&".."))
}

fn effect(name: &str) -> Effect {
    match name {
        "screen" => Effect::Screen,
        "answered" => Effect::Answered,
        "report" => Effect::Report,
        "other" => Effect::Other,
        _ => panic!("{name}"),
    }
}

#[test]
fn each_row_of_the_page_is_found() {
    let page = Path::new(env!("CARGO_MANIFEST_DIR")).join("../../docs/FUNCTIONS.md");
    let page = fs::read_to_string(page).unwrap();
    let (mut controls, mut escapes) = (0, 0);
    for line in page.lines() {
        let line = line.replace("\\|", "\u{0}");
        let cells: Vec<String> = line
            .split('|')
            .map(|it| it.trim().replace('\u{0}', "|"))
            .collect();
        if cells.len() != 8 || !cells[1].starts_with('`') {
            continue;
        }
        let (bytes, has_more) = characters(&cells[1]);
        if cells[1].contains("CSI ") {
            let prefix = bytes.first().copied().filter(|it| b"<=>?".contains(it));
            let (last, rest) = bytes.split_last().unwrap();
            let parameters = cells[4].split(';').filter(|it| !it.is_empty()).count();
            let count = (2 * parameters).saturating_sub(1);
            let marks = &rest[usize::from(prefix.is_some())..];
            let found = ControlFunction::of(prefix, marks, count, *last).unwrap();
            assert_eq!(
                (found.name(), found.words(), found.effect()),
                (&cells[2][..], &cells[3][..], effect(&cells[5]))
            );
            controls += 1;
        } else {
            let (last, rest) = bytes.split_last().unwrap();
            let (intermediates, last) = if has_more {
                (&bytes[..], b'B')
            } else {
                (rest, *last)
            };
            let found = EscapeFunction::of_intermediates(intermediates, last).unwrap();
            assert_eq!(
                (found.name(), found.words(), found.effect()),
                (&cells[3][..], &cells[4][..], effect(&cells[5]))
            );
            escapes += 1;
        }
    }
    assert_eq!(
        (controls, escapes),
        (ControlFunction::ALL.len(), EscapeFunction::ALL.len())
    );
}
