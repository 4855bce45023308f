// SPDX-License-Identifier: MIT
//! A stream that is filtered in chunks gives what it gives whole, over writers of all kinds.
use escape_stream::{ChunkFilter, Error, Filter, Policy, filter};
use std::io::{self, ErrorKind, Write};

const POLICIES: [Policy; 4] = [Policy::Text, Policy::Color, Policy::Screen, Policy::All];

const STREAM: &[u8] =
    b"plain \x1b[31mred\x1b[m caf\xc3\xa9 \xff\x1b]0;a title\x07\x1b]8;;http://e.com/\x1b\\\
    link\x1b]8;;\x07\x1b[?25;1004h\x1b[2J\x1bP+q544e\x1b\\\x1b_Gi=1,a=q;AAAA\x1b\\\x9b7m\x1b]0;cut";

// Takes few bytes at a call, and fails where its plan says so.
struct Slow {
    text: Vec<u8>,
    plan: Vec<Option<ErrorKind>>,
}

impl Slow {
    fn new(plan: impl Into<Vec<Option<ErrorKind>>>) -> Slow {
        let mut plan = plan.into();
        plan.reverse();
        Slow {
            text: Vec::new(),
            plan,
        }
    }
}

impl Write for Slow {
    fn write(&mut self, bytes: &[u8]) -> io::Result<usize> {
        if let Some(Some(kind)) = self.plan.pop() {
            return Err(kind.into());
        }
        let count = bytes.len().min(3);
        self.text.extend_from_slice(&bytes[..count]);
        Ok(count)
    }

    fn flush(&mut self) -> io::Result<()> {
        Ok(())
    }
}

#[test]
fn in_chunks() {
    for policy in POLICIES {
        let whole = filter(policy, 1000, STREAM).unwrap();
        for size in 1..40 {
            let mut log = Filter::with_limit(Slow::new([]), policy, 1000).unwrap();
            for chunk in STREAM.chunks(size) {
                log.write_all(chunk).unwrap();
            }
            assert_eq!(log.into_inner().text, whole, "{policy:?}, {size}");
        }
    }
}

#[test]
fn what_was_not_taken_comes_later() {
    let whole = filter(Policy::All, 1000, STREAM).unwrap();
    let hindered = [
        None,
        Some(ErrorKind::WouldBlock),
        Some(ErrorKind::Interrupted),
    ];
    let mut log = Filter::with_limit(Slow::new(hindered), Policy::All, 1000).unwrap();
    assert_eq!(log.write(STREAM).unwrap(), STREAM.len());
    assert_eq!(log.get_ref().text, whole[..3]);
    log.flush().unwrap();
    assert_eq!(log.get_ref().text, whole);
}

#[test]
fn an_error_is_reported_before_more_is_taken() {
    let closed = [ErrorKind::BrokenPipe; 2].map(Some);
    let mut log = Filter::new(Slow::new(closed), Policy::Text).unwrap();
    assert_eq!(log.write(b"a\x1b[").unwrap(), 3);
    assert_eq!(log.write(b"1mb").unwrap_err().kind(), ErrorKind::BrokenPipe);
    assert_eq!(log.write(b"1mb").unwrap(), 3);
    assert_eq!(log.get_ref().text, b"ab");
}

#[test]
fn a_text_is_read_in_parts() {
    let mut chunks = ChunkFilter::new(Policy::Text).unwrap();
    let mut out = [0; 4];
    assert_eq!(chunks.output_from(0, &mut out), 0);
    chunks.feed(b"abcdef").unwrap();
    assert_eq!((chunks.output_from(0, &mut out), &out), (4, b"abcd"));
    assert_eq!((chunks.output_from(4, &mut out), &out), (2, b"efcd"));
    assert_eq!(chunks.output_from(usize::MAX, &mut out), 0);
    chunks.feed(b"\x1b]0;").unwrap();
    assert_eq!(chunks.output_from(0, &mut out), 0);
}

#[test]
fn errors_are_of_writers() {
    assert_eq!(
        io::Error::from(Error::Memory).kind(),
        ErrorKind::OutOfMemory
    );
}
