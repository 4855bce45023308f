// SPDX-License-Identifier: MIT
//! The calls of the module `vte`: those of version 0.15 of the crate of that name, but for the
//! streams that docs/EMBEDDING.md lists, and however a stream is cut.
mod streams;

use escape_stream::vte::{Params, Parser, Perform, by_byte};
use streams::Random;

// The calls, one after another, each in a line.
#[derive(Default)]
struct Log {
    calls: Vec<String>,
    // Once this call was made it asks to stop.
    stop: Option<&'static str>,
}

fn bytes(of: &[u8]) -> String {
    of.escape_ascii().to_string()
}

fn flag(name: &'static str, is_set: bool) -> &'static str {
    if is_set { name } else { "" }
}

impl Perform for Log {
    fn print(&mut self, c: char) {
        self.calls.push(format!("print {c:?}"));
    }

    fn execute(&mut self, byte: u8) {
        self.calls.push(format!("execute {byte:02x}"));
    }

    fn hook(&mut self, params: &Params, intermediates: &[u8], ignore: bool, action: char) {
        let intermediates = bytes(intermediates);
        let ignore = flag(" ignore", ignore);
        self.calls
            .push(format!("hook {params:?}{intermediates}{action}{ignore}"));
    }

    fn put(&mut self, byte: u8) {
        self.calls.push(format!("put {byte:02x}"));
    }

    fn unhook(&mut self) {
        self.calls.push("unhook".into());
    }

    fn osc_dispatch(&mut self, params: &[&[u8]], bell_terminated: bool) {
        let parts: Vec<String> = params.iter().map(|part| bytes(part)).collect();
        let bell = flag(" bell", bell_terminated);
        self.calls.push(format!("osc {}{bell}", parts.join("|")));
    }

    fn csi_dispatch(&mut self, params: &Params, intermediates: &[u8], ignore: bool, action: char) {
        let intermediates = bytes(intermediates);
        let ignore = flag(" ignore", ignore);
        self.calls
            .push(format!("csi {params:?}{intermediates}{action}{ignore}"));
    }

    fn esc_dispatch(&mut self, intermediates: &[u8], ignore: bool, byte: u8) {
        let intermediates = bytes(intermediates);
        let (byte, ignore) = (char::from(byte), flag(" ignore", ignore));
        self.calls
            .push(format!("esc {intermediates}{byte}{ignore}"));
    }

    fn terminated(&self) -> bool {
        self.calls.iter().any(|call| Some(&call[..]) == self.stop)
    }
}

fn calls<'a>(chunks: impl IntoIterator<Item = &'a [u8]>) -> Vec<String> {
    let mut log = Log::default();
    let mut parser = Parser::new();
    for chunk in chunks {
        parser.advance(&mut log, chunk);
    }
    assert!(!parser.has_failed());
    log.calls
}

fn calls_by_byte(stream: &[u8]) -> Vec<String> {
    let mut log = Log::default();
    let mut parser = by_byte::Parser::new();
    for byte in stream {
        parser.advance(&mut log, *byte);
    }
    log.calls
}

// Whole, byte by byte, in short chunks, and cut once at each place.
fn check(stream: &[u8], told: &[&str]) {
    assert_eq!(calls([stream]), told, "{}", bytes(stream));
    assert_eq!(calls_by_byte(stream), told, "{}", bytes(stream));
    for size in 1..=16 {
        assert_eq!(calls(stream.chunks(size)), told, "{}", bytes(stream));
    }
    for cut in 0..=stream.len() {
        let (front, back) = stream.split_at(cut);
        let cut = [front, back];
        assert_eq!(calls(cut), told, "{}", bytes(&cut.join(&b"<cut>"[..])));
    }
}

type Row = (&'static [u8], &'static [&'static str]);

// The streams that both treat alike: the calls are those of the crate `vte` for these streams.
#[rustfmt::skip]
const SAME: &[Row] = &[
    // Characters and controls.
    (b"", &[]),
    (b"a\r\n~", &["print 'a'", "execute 0d", "execute 0a", "print '~'"]),
    (b"\x00\x07\x18\x1a\x1f", &["execute 00", "execute 07", "execute 18", "execute 1a", "execute 1f"]),
    (b"\x7f", &["print '\\u{7f}'"]),
    (b"\xc3\xa9\xe2\x82\xac\xf0\x9f\x9a\x80", &["print '\u{e9}'", "print '\u{20ac}'", "print '\u{1f680}'"]),
    (b"\x85", &["execute 85"]),
    (b"a\xef\xbcb", &["print 'a'", "print '\u{fffd}'", "print 'b'"]),
    (b"\xe4\xbf\x99\xb5", &["print '\u{4fd9}'", "print '\u{fffd}'"]),
    (b"\xff\xc0\xf5", &["print '\u{fffd}'", "print '\u{fffd}'", "print '\u{fffd}'"]),
    (b"\xd8\x1b012", &["print '\u{fffd}'", "esc 0", "print '1'", "print '2'"]),
    // Escape sequences.
    (b"\x1b7\x1bc", &["esc 7", "esc c"]),
    (b"\x1b(B\x1b#8", &["esc (B", "esc #8"]),
    (b"\x1b $x\x1b $%&x", &["esc  $x", "esc  $x ignore"]),
    (b"\x1b\n(\rB", &["execute 0a", "execute 0d", "esc (B"]),
    (b"\x1b(\x18x", &["execute 18", "print 'x'"]),
    (b"\x1b(\x1bM\x1b\x1bD", &["esc M", "esc D"]),
    (b"\x1b\\", &["esc \\"]),
    // Control sequences.
    (b"\x1b[m\x1b[0m", &["csi [0]m", "csi [0]m"]),
    (b"\x1b[31mr", &["csi [31]m", "print 'r'"]),
    (b"\x1b[;4m\x1b[4;m\x1b[;H", &["csi [0;4]m", "csi [4;0]m", "csi [0;0]H"]),
    (b"\x1b[38:2:255:0:255;1m", &["csi [38:2:255:0:255;1]m"]),
    (b"\x1b[4:3m\x1b[38:2::1:2:3m\x1b[:m", &["csi [4:3]m", "csi [38:2:0:1:2:3]m", "csi [0:0]m"]),
    (b"\x1b[65535;65536;9223372036854775808m", &["csi [65535;65535;65535]m"]),
    (b"\x1b[00042;18446744073709551617A", &["csi [42;65535]A"]),
    (b"\x1b[?1049h\x1b[?25;1004l", &["csi [1049]?h", "csi [25;1004]?l"]),
    (b"\x1b[>c\x1b[=c\x1b[<5u\x1b[?u", &["csi [0]>c", "csi [0]=c", "csi [5]<u", "csi [0]?u"]),
    (b"\x1b[2 q\x1b[!p\x1b[?1$p", &["csi [2] q", "csi [0]!p", "csi [1]?$p"]),
    (b"\x1b[1 \"x\x1b[1 \"#x\x1b[?1 \"x", &["csi [1] \\\"x", "csi [1] \\\"x ignore", "csi [1]? x ignore"]),
    (b"\x1b[3;1\x1b[?1049h", &["csi [1049]?h"]),
    (b"\x1b[3\n1m", &["execute 0a", "csi [31]m"]),
    (b"\x1b[3\x7f1m", &["csi [31]m"]),
    (b"\x1b[3\x18m\x1b[3\x1am", &["execute 18", "print 'm'", "execute 1a", "print 'm'"]),
    (b"\x1b[1?2hx\x1b[1 2qx\x1b[??1hx", &["print 'x'", "print 'x'", "print 'x'"]),
    // Operating system commands.
    (b"\x1b]0;a title\x07", &["osc 0|a title bell"]),
    (b"\x1b]0;a title\x1b\\", &["osc 0|a title", "esc \\"]),
    (b"\x1b]\x07\x1b];\x07\x1b]8;;\x07", &["osc  bell", "osc | bell", "osc 8|| bell"]),
    (b"\x1b]2;\xe6\x9c\xab\x07", &["osc 2|\\xe6\\x9c\\xab bell"]),
    (b"\x1b]2;a\x00\nb\x7f\x07", &["osc 2|ab\\x7f bell"]),
    (b"\x1b]2;a\x18b\x07", &["osc 2|a", "execute 18", "print 'b'", "execute 07"]),
    (b"\x1b]2;a\x1b]3;b\x07", &["osc 2|a", "osc 3|b bell"]),
    (b"\x1b]1;2;3;4;5;6;7;8;9;10;11;12;13;14;15;16\x07", &["osc 1|2|3|4|5|6|7|8|9|10|11|12|13|14|15|16 bell"]),
    (b"\x1b]1;2;3;4;5;6;7;8;9;10;11;12;13;14;15;16;17;18\x07", &["osc 1|2|3|4|5|6|7|8|9|10|11|12|13|14|15|16 bell"]),
    // Device control strings.
    (b"\x1bP0;1|17/ab\x1b\\", &["hook [0;1]|", "put 31", "put 37", "put 2f", "put 61", "put 62", "unhook", "esc \\"]),
    (b"\x1bPq\x1b\\\x1bP;q\x1b\\", &["hook [0]q", "unhook", "esc \\", "hook [0;0]q", "unhook", "esc \\"]),
    (b"\x1bP1$tx\x9c", &["hook [1]$t", "put 78", "unhook"]),
    (b"\x1bP=1s\x1bP>1 !s\x1b\\", &["hook [1]=s", "unhook", "hook [1]> s ignore", "unhook", "esc \\"]),
    (b"\x1bP70000q\n\x07\x18x", &["hook [65535]q", "put 0a", "put 07", "unhook", "execute 18", "print 'x'"]),
    (b"\x1bP1\n2qa\x7f\x1bM", &["hook [12]q", "put 61", "unhook", "esc M"]),
    (b"\x1bP1?2qabc\x1b\\x", &["esc \\", "print 'x'"]),
    // Strings that are passed over.
    (b"\x1b_Ga;b\x07\x1b\\", &["esc \\"]),
    (b"\x1bXa\x1b\\\x1b^b\x18c", &["esc \\", "execute 18", "print 'c'"]),
];

#[test]
fn same() {
    for (stream, told) in SAME {
        check(stream, told);
    }
}

// The streams that the crate treats otherwise.
#[rustfmt::skip]
const OTHERWISE: &[Row] = &[
    // C1 controls among text are obeyed, as a byte and in UTF-8.
    (b"\x9b31m\xc2\x9b32m", &["csi [31]m", "csi [32]m"]),
    (b"\x9d0;a\x9c\xc2\x9d0;b\xc2\x9c", &["osc 0|a", "osc 0|b"]),
    (b"\x901qa\x9c\xc2\x901qb\x9c", &["hook [1]q", "put 61", "unhook", "hook [1]q", "put 62", "unhook"]),
    (b"\x98a\x9c\xc2\x9eb\x9c\x9fc\x07\x9cd\xc2\x9c", &["print 'd'"]),
    // They end sequences and strings, also where they are a byte of a character.
    (b"\x1b[3\x85m\x1b(\xc2\x84c", &["execute 85", "print 'm'", "execute 84", "print 'c'"]),
    (b"\x1b]0;a\x85b\x1b]0;a\xc2\x85b", &["osc 0|a", "execute 85", "print 'b'", "osc 0|a", "execute 85", "print 'b'"]),
    (b"\x1bPq\xe2\x82a\x1b_b\x85c", &["hook [0]q", "put e2", "unhook", "execute 82", "print 'a'", "execute 85", "print 'c'"]),
    (b"\x1bXa\xe2\x82\xacb", &["execute 82", "print '\u{fffd}'", "print 'b'"]),
    // Bytes of a command that are no UTF-8.
    (b"\x1b]0;a\xffb\xc3c\xe9\x07", &["osc 0|ab\\xef\\xbf\\xbdc\\xef\\xbf\\xbd bell"]),
    // All data is handed out.
    (b"\x1bPq\xc3\xa9\xff\x1bM", &["hook [0]q", "put c3", "put a9", "put ff", "unhook", "esc M"]),
    // A header with a colon opens nothing.
    (b"\x1bP1:2qabc\x1b\\x", &["esc \\", "print 'x'"]),
    // Characters and controls that two chunks share: there it loses the `n`, or prints U+0085.
    (b"\xc3\xa9n\xc3\xaf\xc2\x85", &["print '\u{e9}'", "print 'n'", "print '\u{ef}'", "execute 85"]),
];

#[test]
fn otherwise() {
    for (stream, told) in OTHERWISE {
        check(stream, told);
    }
}

#[test]
fn many_parameters() {
    for count in [31, 32, 33, 64, 127, 128, 129, 300] {
        let ignore = flag(" ignore", count > 32);
        for separator in [";", ":"] {
            let numbers = vec!["7"; count].join(separator);
            let kept = vec!["7"; count.min(32)].join(separator);
            let told = [format!("csi [{kept}]?m{ignore}")];
            check(format!("\x1b[?{numbers}m").as_bytes(), &[&told[0]]);
        }
        let numbers = vec!["7"; count].join(";");
        let kept = vec!["7"; count.min(32)].join(";");
        let told = [format!("hook [{kept}]q{ignore}"), "unhook".into()];
        check(
            format!("\x1bP{numbers}q\x1b").as_bytes(),
            &[&told[0], &told[1]],
        );
    }
}

#[test]
fn stops() {
    let mut parser = Parser::new();
    let mut log = Log {
        stop: Some("csi [2026]?h"),
        ..Log::default()
    };
    let stream = b"ab\x1b[?2026hcd\x1b]2;a\x18e";
    assert_eq!(parser.advance_until_terminated(&mut log, stream), 10);
    assert_eq!(log.calls, ["print 'a'", "print 'b'", "csi [2026]?h"]);
    assert_eq!(parser.advance_until_terminated(&mut log, &stream[10..]), 0);
    assert_eq!(log.calls.len(), 3);

    // A byte that gives two calls gives both.
    log.stop = Some("osc 2|a");
    assert_eq!(parser.advance_until_terminated(&mut log, &stream[10..]), 8);
    assert_eq!(
        log.calls[3..],
        ["print 'c'", "print 'd'", "osc 2|a", "execute 18"]
    );
    log.stop = None;
    assert_eq!(parser.advance_until_terminated(&mut log, &stream[18..]), 1);
    assert_eq!(log.calls[7..], ["print 'e'"]);
}

// As many bytes are taken for a call in a short chunk as in a long one.
#[test]
fn stops_in_short_chunks() {
    for (stream, stop, taken) in [
        (&b"\x1b]2;a\x07bc"[..], "osc 2|a bell", 6),
        (b"\x1b]2;a\x1b\\bc", "osc 2|a", 6),
        (b"\x1b[31mbc", "csi [31]m", 5),
        (b"\x1b7bc", "esc 7", 2),
    ] {
        for more in ["", "a text that is longer than a short chunk"] {
            let mut log = Log {
                stop: Some(stop),
                ..Log::default()
            };
            let chunk = [stream, more.as_bytes()].concat();
            let mut parser = Parser::new();
            let count = parser.advance_until_terminated(&mut log, &chunk);
            assert_eq!((count, &log.calls[..]), (taken, &[stop.to_string()][..]));
            log.stop = None;
            parser.advance(&mut log, &chunk[count..]);
            assert_eq!(log.calls, calls([&chunk[..]]));
        }
    }
}

#[test]
fn long_strings() {
    let mut log = Log::default();
    let mut parser = Parser::with_limit(4);
    parser.advance(&mut log, b"\x1b]0;ab\x07\x1b]0;abc\x07\x1bP12345qa\x1b\\");
    parser.advance(&mut log, b"\x1bP1234qabcdefgh\x18");
    assert_eq!(log.calls[..3], ["osc 0|ab bell", "esc \\", "hook [1234]q"]);
    assert_eq!(log.calls[11..], ["unhook", "execute 18"]);

    let mut log = Log::default();
    let mut parser = Parser::<4>::new_with_size();
    parser.advance(&mut log, b"\x1b]0;ab\x07\x1b]0;abc\x07");
    assert_eq!(log.calls, ["osc 0|ab bell"]);

    for (length, count) in [(1_048_576, 1), (1_048_577, 0)] {
        let mut log = Log::default();
        let text = [&b"52;c;"[..], &vec![b'a'; length - 5]].concat();
        Parser::new().advance(&mut log, &[b"\x1b]", &text[..], b"\x07"].concat());
        assert_eq!(log.calls.len(), count);
    }
}

// Memory grows with a string, and none is lost while it does: U+FFFD is longer than its bytes.
#[test]
fn strings_that_grow() {
    let broken = b"\xe2\x82;".repeat(40_000);
    let strings = [
        &vec![b'a'; 20_000][..],
        &vec![b'b'; 300_000],
        b"short",
        &broken,
    ];
    let stream = strings
        .map(|it| [b"x\x1b]52;c;", it, b"\x07\x1bP1q", it, b"\x1b\\"].concat())
        .concat();
    let whole = calls([&stream[..]]);
    assert_eq!(
        whole
            .iter()
            .filter(|it| it.starts_with("osc 52|c|"))
            .count(),
        4
    );
    for size in [1, 7, 33, 1000, 65_536] {
        assert!(calls(stream.chunks(size)) == whole, "in chunks of {size}");
    }
}

#[test]
fn parameters() {
    struct Seen(Vec<Vec<u16>>);

    impl Perform for Seen {
        fn csi_dispatch(&mut self, params: &Params, _: &[u8], _: bool, _: char) {
            assert_eq!((params.len(), params.is_empty()), (6, false));
            assert_eq!(params.iter().size_hint(), (1, Some(6)));
            assert_eq!(format!("{params:?}"), "[4:3;0;38:5:1]");
            for param in params {
                self.0.push(param.to_vec());
            }
        }
    }

    let mut seen = Seen(Vec::new());
    // The other calls do nothing by default.
    Parser::new().advance(
        &mut seen,
        b"a\n\x1b7\x1b]0\x07\x1b[4:3;;38:5:1m\x1bPqa\x1b\\",
    );
    assert_eq!(seen.0, [&[4, 3][..], &[0], &[38, 5, 1]]);

    let none = Params::default();
    assert!(none.is_empty() && none.iter().next().is_none());
}

// The calls for a stream in chunks whose lengths are drawn, many of them one byte or few.
fn calls_by_chance(limit: usize, stream: &[u8], random: &mut Random) -> Vec<String> {
    let mut log = Log::default();
    let mut parser = Parser::with_limit(limit);
    let mut rest = stream;
    while !rest.is_empty() {
        let length = match random.below(6) {
            0 => 1 + random.below(rest.len()),
            1 | 2 => (2 + random.below(40)).min(rest.len()),
            _ => 1,
        };
        let (chunk, after) = rest.split_at(length);
        parser.advance(&mut log, chunk);
        rest = after;
    }
    log.calls
}

#[test]
fn however_a_stream_is_cut() {
    let mut random = Random(7);
    for round in 0..4000 {
        let stream = random.stream();
        let limit = if round % 2 == 0 { 8 } else { 1 << 12 };
        let mut log = Log::default();
        Parser::with_limit(limit).advance(&mut log, &stream);
        let shown = stream.escape_ascii();
        let mut by_one = Log::default();
        let mut parser = Parser::with_limit(limit);
        for byte in &stream {
            parser.advance(&mut by_one, &[*byte]);
        }
        assert_eq!(by_one.calls, log.calls, "{shown} byte by byte");
        let size = 2 + round % 31;
        let mut by_few = Log::default();
        let mut parser = Parser::with_limit(limit);
        for chunk in stream.chunks(size) {
            parser.advance(&mut by_few, chunk);
        }
        assert_eq!(by_few.calls, log.calls, "{shown} by {size}");
        let found = calls_by_chance(limit, &stream, &mut random);
        assert_eq!(found, log.calls, "{shown}");
    }
}
