// SPDX-License-Identifier: MIT
//! Random streams of parts of sequences: their actions are the same however they are taken, and
//! what is written of them is the normal form.
mod streams;

use escape_stream::action::{Action, DeviceControlMode, Parser, encode};
use escape_stream::normal;
use streams::Random;

fn parser() -> Parser {
    Parser::with_limits(1 << 12, 1 << 12)
}

// The actions of a stream in chunks of a length, with what is printed joined.
fn in_chunks(stream: &[u8], length: usize) -> Vec<Action> {
    let mut parser = parser();
    let mut actions = Vec::new();
    for chunk in stream.chunks(length) {
        parser.parse(chunk, |action| action.append_to(&mut actions));
    }
    assert_eq!(parser.failure(), None);
    actions
}

#[test]
fn however_they_are_taken() {
    let mut random = Random(1);
    for _ in 0..4000 {
        let stream = random.stream();
        let wanted = in_chunks(&stream, 1);
        let shown = stream.escape_ascii();
        for length in [2, 3, 7, 16, 64, 1000] {
            assert_eq!(in_chunks(&stream, length), wanted, "{shown} by {length}");
        }
        let mut found = Vec::new();
        let mut parser = parser();
        let (first, second) = stream.split_at(random.below(stream.len() + 1));
        for chunk in [first, second] {
            parser
                .actions(chunk)
                .for_each(|it| it.append_to(&mut found));
        }
        assert_eq!(found, wanted, "{shown}");
    }
}

#[test]
fn by_first_actions() {
    let mut random = Random(2);
    for _ in 0..4000 {
        let stream = random.stream();
        let mut parser = parser();
        let (mut found, mut rest) = (Vec::new(), &stream[..]);
        while let Some((actions, count)) = parser.parse_first_as_vec(rest) {
            assert!(count > 0 && !actions.is_empty());
            actions.into_iter().for_each(|it| it.append_to(&mut found));
            rest = &rest[count..];
        }
        // The actions of the last bytes are dropped if they leave something unfinished.
        let wanted = in_chunks(&stream[..stream.len() - rest.len()], 1000);
        assert_eq!(found, wanted, "{}", stream.escape_ascii());
    }
}

// Whether the steps of each mode are whole.
fn are_whole(actions: &[Action]) -> bool {
    let count = |wanted: fn(&DeviceControlMode) -> bool| {
        let is_it = |it: &&Action| matches!(it, Action::DeviceControl(mode) if wanted(mode));
        actions.iter().filter(is_it).count()
    };
    count(|it| matches!(it, DeviceControlMode::Enter(_)))
        == count(|it| matches!(it, DeviceControlMode::Exit))
}

#[test]
fn what_is_written_is_the_normal_form() {
    let mut random = Random(3);
    let mut count = 0;
    for _ in 0..4000 {
        let stream = random.stream();
        let actions = in_chunks(&stream, 1000);
        if !are_whole(&actions) {
            continue;
        }
        let Ok(text) = encode(&actions) else {
            // (an escape sequence that lost its intermediates may open something)
            assert!(actions.iter().any(|it| it.to_bytes().is_err()));
            continue;
        };
        assert_eq!(text, normal(&stream).unwrap(), "{}", stream.escape_ascii());
        count += 1;
    }
    assert!(count > 3000, "{count} streams");
}
