// SPDX-License-Identifier: MIT
//! The types that may move between threads, be copied, and be shown; and the kinds of errors.
use escape_stream::html::ChunkPage;
use escape_stream::{
    ChunkFilter, Error, Event, Filter, FilterReader, NormalReader, NormalWriter, Normaliser,
    Parser, Policy, Sanitizer, SanitizerReader, SanitizerWriter, action, screen, termwiz, vte,
};
use std::fmt::Debug;
use std::io::{self, ErrorKind, Write};
use std::thread;

fn is_free<T: Debug + Send + Sync + 'static>() {}

fn is_copied<T: Clone>() {}

#[test]
fn types() {
    is_free::<Parser>();
    is_free::<action::Parser>();
    is_free::<vte::Parser>();
    is_free::<vte::by_byte::Parser>();
    is_free::<ChunkFilter>();
    is_free::<ChunkPage>();
    is_free::<Normaliser>();
    is_free::<Filter<Vec<u8>>>();
    is_free::<NormalWriter<Vec<u8>>>();
    is_free::<FilterReader<&'static [u8]>>();
    is_free::<NormalReader<&'static [u8]>>();
    is_free::<Sanitizer>();
    is_free::<SanitizerWriter<Vec<u8>>>();
    is_free::<SanitizerReader<&'static [u8]>>();
    is_free::<screen::Parser>();
    is_free::<termwiz::escape::parser::Parser>();
    is_copied::<action::Parser>();
    is_copied::<vte::by_byte::Parser>();
}

// A filter is begun in one thread, is fed in others, one after another, and is dropped in the last.
#[test]
fn moved_between_calls() {
    let mut filter = Filter::new(Vec::new(), Policy::Color).unwrap();
    for chunk in [&b"a\x1b]0;a ti"[..], b"tle\x07\x1b[3", b"1mred"] {
        let fed = thread::spawn(move || {
            filter.write_all(chunk).unwrap();
            filter
        });
        filter = fed.join().unwrap();
    }
    assert_eq!(filter.get_ref(), b"a\x1b[31mred");
    thread::spawn(move || drop(filter)).join().unwrap();
}

fn events(parser: &mut Parser, bytes: &[u8]) -> Vec<String> {
    let mut events = Vec::new();
    let act = |event: Event<'_>| events.push(format!("{event:?}"));
    parser.advance(bytes, act).unwrap();
    events
}

// Wherever a stream is cut, a copy of the parser gives the events of the rest as the parser does.
#[test]
fn copies_go_on() {
    let stream = b"a\xc3\xa9\x1b[1;31mb\x1b]0;a title\x07\x1bP1$qm\x1b\\\x1b_Ga=q\x1b\\\x9b";
    for at in 0..=stream.len() {
        let mut parser = Parser::with_limit(64);
        let _ = events(&mut parser, &stream[..at]);
        let mut copy = parser.clone();
        let of_copy = events(&mut copy, &stream[at..]);
        let _ = events(&mut copy, b"\x18\x1b]2;other\x07");
        assert_eq!(of_copy, events(&mut parser, &stream[at..]), "{at}");
    }
}

#[test]
fn limits() {
    assert_eq!(
        Parser::try_with_limit(usize::MAX / 2 + 1).err(),
        Some(Error::Memory)
    );
    let mut parser = Parser::try_with_limit(3).unwrap();
    let wanted = ["Osc([50, 59, 97])", "Limit"];
    assert_eq!(events(&mut parser, b"\x1b]2;a\x07\x1b]2;ab\x07"), wanted);
    assert_eq!(
        format!("{parser:?}"),
        "Parser { limit: 3, is_ground: true, .. }"
    );
}

#[test]
fn kinds_of_errors() {
    let kind = |error| io::Error::from(error).kind();
    assert_eq!(kind(Error::Memory), ErrorKind::OutOfMemory);
    assert_eq!(kind(Error::NotWritable), ErrorKind::InvalidInput);
    assert_eq!(kind(Error::Failed), ErrorKind::Other);
}
