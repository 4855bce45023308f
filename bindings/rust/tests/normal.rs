// SPDX-License-Identifier: MIT
//! The normal form of a stream in chunks, through readers and writers too, is that of the whole.
use escape_stream::{Error, NormalReader, NormalWriter, Normaliser, normal};
use std::io::{Read, Write};

const STREAM: &[u8] =
    b"plain \x1b[031mred\x1b[m caf\xc3\xa9 \xff\x1b]0;a title\x07\x1b]8;;http://e.com/\x1b\\\
    link\x1b]8;;\x07\x1b\\\x1b[?25;1004h\x1bP+q544e\x1b\\\x1b_Gi=1,a=q;AAAA\x1b\\\x9b7m\x1b]0;cut";

#[test]
fn in_chunks() {
    let whole = normal(STREAM).unwrap();
    let mut normaliser = Normaliser::with_limit(1000).unwrap();
    for size in 1..=STREAM.len() {
        let mut text = Vec::new();
        for chunk in STREAM.chunks(size) {
            normaliser.feed(chunk).unwrap();
            normaliser.output(|part| text.extend_from_slice(part));
        }
        assert_eq!(text, whole, "{size}");
        normaliser.finish().unwrap();
        assert_eq!(normaliser.output_from(0, &mut [0; 8]), 0, "{size}");
    }
}

#[test]
fn written() {
    let whole = normal(STREAM).unwrap();
    for size in 1..40 {
        let mut log = NormalWriter::with_limit(Vec::new(), 1000).unwrap();
        for chunk in STREAM.chunks(size) {
            log.write_all(chunk).unwrap();
        }
        assert_eq!(*log.get_ref(), whole, "{size}");
        log.finish().unwrap();
        log.write_all(b"x").unwrap();
        assert_eq!(log.into_inner(), [&whole[..], b"x"].concat(), "{size}");
    }
}

// Gives few bytes at a call.
struct Slow<'a>(&'a [u8], usize);

impl Read for Slow<'_> {
    fn read(&mut self, out: &mut [u8]) -> std::io::Result<usize> {
        let room = self.1.min(out.len());
        self.0.read(&mut out[..room])
    }
}

#[test]
fn read() {
    let whole = normal(STREAM).unwrap();
    for size in 1..40 {
        for room in [1, 3, 4096] {
            let mut reader = NormalReader::with_limit(Slow(STREAM, size), 1000).unwrap();
            let mut text = Vec::new();
            let mut out = vec![0; room];
            loop {
                match reader.read(&mut out).unwrap() {
                    0 => break,
                    count => text.extend_from_slice(&out[..count]),
                }
            }
            assert_eq!(text, whole, "{size}, {room}");
        }
    }
}

#[test]
fn past_the_limit() -> Result<(), Error> {
    let mut out = [0; 16];
    let mut normaliser = Normaliser::with_limit(3)?;
    normaliser.feed(b"a\x1b]2;bc\x07d")?;
    assert_eq!(normaliser.output_from(0, &mut out), 2);
    assert_eq!(&out[..2], b"ad");
    normaliser.feed(b"\x1b]2;b\x07")?;
    assert_eq!(normaliser.output_from(0, &mut out), 7);
    assert_eq!(&out[..7], b"\x1b]2;b\x1b\\");
    assert_eq!(normaliser.output_from(7, &mut out), 0);
    Ok(())
}
