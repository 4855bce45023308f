// SPDX-License-Identifier: MIT
//! The text that is read through a filter, in chunks of all kinds, is the text that it gives for
//! the whole.
use escape_stream::{ChunkFilter, FilterReader, FilterWriter, Policy};
use std::io::{self, ErrorKind, Read, Write};

const POLICIES: [Policy; 4] = [Policy::Text, Policy::Color, Policy::Screen, Policy::All];

const STREAM: &[u8] =
    b"plain \x1b[31mred\x1b[m caf\xc3\xa9 \xff\x1b]0;a title\x07\x1b]8;;http://e.com/\x1b\\\
    link\x1b]8;;\x07\x1b[?25;1004h\x1b[2J\x1bP+q544e\x1b\\\x1b_Gi=1,a=q;AAAA\x1b\\\x9b7m\x1b]0;cut";

// Gives few bytes at a call, and errors where its plan says so.
struct Slow<'a> {
    rest: &'a [u8],
    size: usize,
    plan: Vec<Option<ErrorKind>>,
}

impl<'a> Slow<'a> {
    fn new(rest: &'a [u8], size: usize, plan: impl Into<Vec<Option<ErrorKind>>>) -> Slow<'a> {
        let mut plan = plan.into();
        plan.reverse();
        Slow { rest, size, plan }
    }
}

impl Read for Slow<'_> {
    fn read(&mut self, out: &mut [u8]) -> io::Result<usize> {
        if let Some(Some(kind)) = self.plan.pop() {
            return Err(kind.into());
        }
        let count = self.size.min(out.len()).min(self.rest.len());
        let (first, rest) = self.rest.split_at(count);
        out[..count].copy_from_slice(first);
        self.rest = rest;
        Ok(count)
    }
}

// The text of a stream that has ended.
fn whole(policy: Policy) -> Vec<u8> {
    let mut text = Vec::new();
    let mut filter = ChunkFilter::with_limit(policy, 1000).unwrap();
    filter.feed(STREAM).unwrap();
    filter.output(|part| text.extend_from_slice(part));
    filter.finish().unwrap();
    filter.output(|part| text.extend_from_slice(part));
    text
}

#[test]
fn in_chunks() {
    for policy in POLICIES {
        let wanted = whole(policy);
        for size in 1..40 {
            for room in [1, 3, 4096] {
                let inner = Slow::new(STREAM, size, []);
                let mut reader = FilterReader::with_limit(inner, policy, 1000).unwrap();
                let mut text = Vec::new();
                let mut out = vec![0; room];
                loop {
                    let count = reader.read(&mut out).unwrap();
                    if count == 0 {
                        break;
                    }
                    text.extend_from_slice(&out[..count]);
                }
                assert_eq!(text, wanted, "{policy:?}, {size}, {room}");
                assert_eq!(reader.read(&mut out).unwrap(), 0);
            }
        }
    }
}

#[test]
fn a_reader_and_a_writer_agree() {
    for policy in POLICIES {
        let mut writer = FilterWriter::with_limit(Vec::new(), policy, 1000).unwrap();
        for byte in STREAM {
            writer.write_all(&[*byte]).unwrap();
        }
        writer.finish().unwrap();
        assert_eq!(writer.into_inner(), whole(policy), "{policy:?}");
    }
}

#[test]
fn an_error_is_handed_on() {
    let plan = [
        None,
        Some(ErrorKind::WouldBlock),
        None,
        Some(ErrorKind::Interrupted),
        Some(ErrorKind::BrokenPipe),
    ];
    let mut reader = FilterReader::new(Slow::new(STREAM, 7, plan), Policy::All).unwrap();
    let mut text = Vec::new();
    let mut kinds = Vec::new();
    let mut out = [0; 5];
    loop {
        match reader.read(&mut out) {
            Ok(0) => break,
            Ok(count) => text.extend_from_slice(&out[..count]),
            Err(error) => kinds.push(error.kind()),
        }
    }
    let wanted = [
        ErrorKind::WouldBlock,
        ErrorKind::Interrupted,
        ErrorKind::BrokenPipe,
    ];
    assert_eq!(kinds, wanted);
    assert_eq!(text, whole(Policy::All));
}

#[test]
fn what_passes_comes_before_more_is_read() {
    let mut reader = FilterReader::new(Slow::new(b"a\x1b[1mb", 2, []), Policy::Text).unwrap();
    let mut out = [0; 8];
    assert_eq!((reader.read(&mut out).unwrap(), out[0]), (1, b'a'));
    assert_eq!(reader.get_ref().rest, b"[1mb");
    assert_eq!(reader.read(&mut []).unwrap(), 0);
    assert_eq!((reader.read(&mut out).unwrap(), out[0]), (1, b'b'));
    assert_eq!(reader.get_mut().rest, b"");
    assert_eq!(reader.read(&mut out).unwrap(), 0);
    assert_eq!(reader.into_inner().rest, b"");
}

#[test]
fn the_end_takes_back_what_was_left() {
    let mut text = String::new();
    let inner = Slow::new(b"\x1b[31mred\x1b]8;;http://e.com/\x07", 1, []);
    let mut reader = FilterReader::new(inner, Policy::Color).unwrap();
    reader.read_to_string(&mut text).unwrap();
    assert!(
        text.starts_with("\x1b[31mred\x1b]8;;http://e.com/\x1b\\"),
        "{text:?}"
    );
    assert!(text.ends_with("\x1b[0m\x1b]8;;\x1b\\") || text.ends_with("\x1b]8;;\x1b\\\x1b[0m"));
}
