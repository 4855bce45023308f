// SPDX-License-Identifier: MIT
//! A log that is sanitized loses no line to a string that nobody ends, and each byte of it is told.
use escape_stream::{
    Account, Characters, Encoding, Error, Framing, Group, Marking, Policy, Returns, Sanitizer,
    SanitizerOptions, SanitizerReader, SanitizerWriter, Scheme,
};
use std::io::{ErrorKind, Read, Write};

const POLICIES: [Policy; 4] = [Policy::Text, Policy::Color, Policy::Screen, Policy::All];

const STREAM: &[u8] =
    b"plain \x1b[31mred\x1b[m caf\xc3\xa9 \xff\x1b]0;a title\x07\x1b]8;;http://e.com/\x1b\\\
    link\x1b]8;;\x07\x1b[?25;1004h\r\n\x1b[2J\x1bP+q544e\x1b\\\x1b_Gi=1,a=q;AAAA\x1b\\\x9b7m\
    a\rb\xe2\x80\xaec\n\x1b]0;cut\nlast";

fn sanitized(options: SanitizerOptions, stream: &[u8], size: usize) -> (Vec<u8>, Account) {
    let mut text = Vec::new();
    let mut log = Sanitizer::new(options).unwrap();
    for chunk in stream.chunks(size) {
        log.feed(chunk).unwrap();
        log.output(|part| text.extend_from_slice(part));
    }
    log.finish().unwrap();
    log.output(|part| text.extend_from_slice(part));
    (text, log.account().unwrap())
}

fn text_of(options: SanitizerOptions, stream: &[u8]) -> Vec<u8> {
    sanitized(options, stream, 3).0
}

fn sum(account: Account) -> u64 {
    account.passed
        + account.respelled
        + account.shown
        + account.replaced
        + account.left_out
        + account.swallowed
        + account.overwritten
}

fn text() -> SanitizerOptions {
    SanitizerOptions::new(Policy::Text)
}

#[test]
fn a_string_that_nobody_ends_takes_one_line() {
    for policy in [Policy::Text, Policy::Color] {
        let options = SanitizerOptions::new(policy);
        let log = b"one\n\x1b]two\nthree\nfour\n";
        assert_eq!(text_of(options, log), b"one\n\nthree\nfour\n");
        assert_eq!(text_of(options.framing(Framing::Whole), log), b"one\n");
    }
}

#[test]
fn any_size_of_chunks_gives_the_same() {
    for policy in POLICIES {
        for options in [
            SanitizerOptions::new(policy),
            SanitizerOptions::new(policy).framing(Framing::Whole),
            SanitizerOptions::new(policy).framing(Framing::LinesReset),
            SanitizerOptions::new(policy).show(Marking::Escaped),
            SanitizerOptions::new(policy).rows(4),
            SanitizerOptions::new(policy).rows(2).columns(5),
        ] {
            let whole = sanitized(options, STREAM, STREAM.len());
            for size in 1..40 {
                assert_eq!(
                    sanitized(options, STREAM, size),
                    whole,
                    "{policy:?}, {size}"
                );
            }
        }
    }
}

#[test]
fn sums_add_up_to_the_length() {
    for policy in POLICIES {
        for framing in [Framing::Lines, Framing::Whole, Framing::LinesReset] {
            let options = SanitizerOptions::new(policy).framing(framing);
            let (_, account) = sanitized(options, STREAM, 7);
            assert_eq!(account.length, STREAM.len() as u64);
            assert_eq!(sum(account), account.length, "{policy:?}, {framing:?}");
        }
    }
    let none = sanitized(text().account(false), STREAM, 7).1;
    assert_eq!(none, Account::default());
}

// Bytes that open strings and sequences, that end them, and text.
const OPENERS: &[u8] =
    b"\x1b\x1b\x1b]0;[P_X^\\\x07\x18\x9b\x9c\x9d\xc2\xc3\xa9\xe2\x80\xff\n\r\taz8mh";

#[test]
fn text_is_plain() {
    let mut streams = vec![STREAM.to_vec()];
    let mut seed: u32 = 1;
    for _ in 0..200 {
        let mut bytes = || {
            seed = seed.wrapping_mul(1_664_525).wrapping_add(1_013_904_223);
            OPENERS[(seed >> 16) as usize % OPENERS.len()]
        };
        streams.push((0..300).map(|_| bytes()).collect());
    }
    for stream in &streams {
        for options in [
            text(),
            text().framing(Framing::Whole),
            text().show(Marking::Reversed),
        ] {
            let text = String::from_utf8(text_of(options, stream)).unwrap();
            assert!(
                text.chars()
                    .all(|c| matches!(c, '\t' | '\n' | '\r' | ' '..='~' | '\u{a0}'..))
            );
        }
    }
}

#[test]
fn each_option_says_what_it_says() {
    let color = SanitizerOptions::new(Policy::Color);
    let goes_on = b"\x1b[1mb\x1b[0m\n\x1b[1mc\x1b[0m\nd";
    assert_eq!(text_of(color, b"\x1b[1mb\nc\x1b[0m\nd"), goes_on);
    let reset = color.framing(Framing::LinesReset);
    assert_eq!(text_of(reset, b"\x1b[1mb\nc"), b"\x1b[1mb\x1b[0m\nc");
    assert_eq!(text_of(color.deny(Group::Sgr), b"\x1b[1mb"), b"b");
    let title = b"\x1b]2;t\x1b\\x";
    assert_eq!(text_of(text().allow(Group::Titles), title), title);
    let link = b"\x1b]8;;http://a\x1b\\x\x1b]8;;\x1b\\";
    assert_eq!(
        text_of(color.links(Scheme::Http).links(Scheme::Https), link),
        link
    );
    assert_eq!(
        text_of(color.links(Scheme::Mailto), link),
        b"x\x1b]8;;\x1b\\"
    );
    let hidden = "a\u{202e}b".as_bytes();
    assert_eq!(text_of(text(), hidden), b"a<U+202E>b");
    assert_eq!(text_of(text().characters(Characters::Keep), hidden), hidden);
    assert_eq!(text_of(text().characters(Characters::Drop), hidden), b"ab");
    assert_eq!(text_of(text(), b"a\rb\r\n"), b"a^Mb\r\n");
    assert_eq!(
        text_of(text().returns(Returns::Keep), b"a\rb\r\n"),
        b"a\rb\r\n"
    );
    assert_eq!(
        text_of(text().encoding(Encoding::Utf8C1), b"a\x9b1mb"),
        b"ab"
    );
    assert_eq!(
        text_of(text().encoding(Encoding::Windows1258), b"\x80"),
        "€".as_bytes()
    );
    let in_utf_16: [(Encoding, &[u8]); 4] = [
        (Encoding::Utf16, b"\xff\xfea\0=\xd8\0\xde\n"),
        (Encoding::Utf16, b"\xfe\xff\0a\xd8=\xde\0\0"),
        (Encoding::Utf16Le, b"a\0=\xd8\0\xde\n"),
        (Encoding::Utf16Be, b"\0a\xd8=\xde\0\0"),
    ];
    for (encoding, units) in in_utf_16 {
        let wanted = "a\u{1f600}\u{fffd}".as_bytes();
        assert_eq!(text_of(text().encoding(encoding), units), wanted);
    }
    assert_eq!(
        text_of(text().show(Marking::Plain), b"a\x1b]0;t\x07"),
        b"a^[]0;t^G"
    );
    assert_eq!(text_of(text().rows(8), b"10%\r20%\n"), b"20%\n");
    let long = b"abcdef\x1b[Gx\n";
    assert_eq!(text_of(text().rows(8), long), b"xbcdef\n");
    assert_eq!(text_of(text().rows(8).columns(4), long), b"abcdxf\n");
    assert_eq!(text_of(text().limit(4), b"a\x1b]0;long\x07b\n"), b"ab\n");
}

#[test]
fn misuse_is_told() {
    assert_eq!(
        Sanitizer::new(text().rows(4097)).unwrap_err(),
        Error::TooManyRows
    );
    assert_eq!(
        Sanitizer::new(text().columns(16_385)).unwrap_err(),
        Error::TooManyColumns
    );
    let mut log = Sanitizer::new(text()).unwrap();
    log.finish().unwrap();
    assert_eq!(log.feed(b"a"), Err(Error::Failed));
    assert_eq!(log.finish(), Err(Error::Failed));
    assert_eq!(log.account(), Err(Error::Failed));
}

#[test]
fn writers_and_readers_give_the_same() {
    let options = SanitizerOptions::new(Policy::Color);
    let (wanted, account) = sanitized(options, STREAM, 7);
    let mut writer = SanitizerWriter::new(Vec::new(), options).unwrap();
    for chunk in STREAM.chunks(5) {
        writer.write_all(chunk).unwrap();
    }
    writer.finish().unwrap();
    writer.finish().unwrap();
    assert_eq!(
        writer.write(b"a").unwrap_err().kind(),
        ErrorKind::InvalidInput
    );
    assert_eq!(writer.account().unwrap(), account);
    assert_eq!(writer.into_inner(), wanted);
    let mut reader = SanitizerReader::new(STREAM, options).unwrap();
    let mut text = Vec::new();
    reader.read_to_end(&mut text).unwrap();
    assert_eq!(text, wanted);
    assert_eq!(reader.account().unwrap(), account);
}
