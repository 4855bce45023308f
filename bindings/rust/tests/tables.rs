// SPDX-License-Identifier: MIT
//! Checks the calls against the tables of streams that the proved programs are checked against.
//! docs/DEVELOPING.md has their form.
mod rows;

use escape_stream::{
    ChunkFilter, Normaliser, Policy, filter, filter_into, is_normal, normal, normal_into,
};
use rows::{Row, count_rows};
use std::str;

const LIMIT: usize = 1_048_576;

// Only some capacities are tried for longer texts, and only large chunks for longer streams.
const EACH_CAPACITY_UP_TO: usize = 2000;

const POLICIES: [(&str, Policy); 4] = [
    ("as-text", Policy::Text),
    ("as-color", Policy::Color),
    ("as-screen", Policy::Screen),
    ("as-all", Policy::All),
];

// The call writes this text into any room, and nothing past it.
fn check_capacities(row: &Row, text: &[u8], call: impl Fn(&mut [u8]) -> usize) {
    let first = if text.len() <= EACH_CAPACITY_UP_TO {
        0
    } else {
        text.len() - 1
    };
    for capacity in [0].into_iter().chain(first..text.len() + 2) {
        let mut out: Vec<u8> = (0..capacity + 8).map(|i| i as u8 ^ 0xa5).collect();
        let before = out.clone();
        let written = capacity.min(text.len());
        assert_eq!(call(&mut out[..capacity]), text.len(), "{}", row.name());
        assert!(out[..written] == text[..written], "{}", row.name());
        assert!(out[written..] == before[written..], "{}", row.name());
    }
}

// The text that undoes the changes of a stream, which a filter in chunks gives when it is finished.
fn end_of(policy: Policy, limit: usize, stream: &[u8]) -> Vec<u8> {
    let mut end = Vec::new();
    let mut filter = ChunkFilter::with_limit(policy, limit).unwrap();
    filter.feed(stream).unwrap();
    filter.finish().unwrap();
    filter.output(|part| end.extend_from_slice(part));
    end
}

// The normal form of a stream in chunks of this size, within a limit that no string of it passes.
fn normal_in_chunks(stream: &[u8], size: usize) -> Vec<u8> {
    let mut text = Vec::new();
    let mut normaliser = Normaliser::with_limit(stream.len()).unwrap();
    for chunk in stream.chunks(size) {
        normaliser.feed(chunk).unwrap();
        normaliser.output(|part| text.extend_from_slice(part));
    }
    text
}

#[test]
fn normal_forms() {
    let count = count_rows(|row| {
        let (Some(stream), None, None) = (
            row.bytes("stream"),
            row.bytes("limit"),
            row.bytes("as-text"),
        ) else {
            return false;
        };
        let text = row.bytes("text").unwrap_or_else(|| stream.clone());
        assert!(normal(&stream).unwrap() == text, "{}", row.name());
        assert!(
            is_normal(&stream).unwrap() == (text == stream),
            "{}",
            row.name()
        );
        let short = if stream.len() <= EACH_CAPACITY_UP_TO {
            1
        } else {
            4000
        };
        for size in [short, 5 * short] {
            assert!(
                normal_in_chunks(&stream, size) == text,
                "{}: {size}",
                row.name()
            );
        }
        check_capacities(row, &text, |out| normal_into(&stream, out).unwrap());
        true
    });
    assert!(count > 300, "{count} rows");
}

#[test]
fn what_policies_admit() {
    let count = count_rows(|row| {
        let (Some(stream), Some(mut text)) = (row.bytes("stream"), row.bytes("as-text")) else {
            return false;
        };
        for (word, policy) in POLICIES {
            text = row.bytes(word).unwrap_or(text);
            let open = filter(policy, LIMIT, &stream).unwrap();
            let end = end_of(policy, LIMIT, &stream);
            assert!(
                [open.as_slice(), &end].concat() == text,
                "{}: {word}",
                row.name()
            );
            assert!(is_normal(&text).unwrap(), "{}: {word}", row.name());
            check_capacities(row, &open, |out| {
                filter_into(policy, LIMIT, &stream, out).unwrap()
            });
        }
        true
    });
    assert!(count > 30, "{count} rows");
}

#[test]
fn limits() {
    let count = count_rows(|row| {
        let text = row.bytes("as-all").or_else(|| row.bytes("text"));
        let (Some(stream), Some(limit), Some(text)) =
            (row.bytes("stream"), row.bytes("limit"), text)
        else {
            return false;
        };
        let limit = str::from_utf8(&limit).unwrap().parse().unwrap();
        let mut whole = filter(Policy::All, limit, &stream).unwrap();
        whole.extend(end_of(Policy::All, limit, &stream));
        assert!(whole == text, "{}", row.name());
        true
    });
    assert!(count > 10, "{count} rows");
}
