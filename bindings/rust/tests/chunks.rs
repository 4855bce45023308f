// SPDX-License-Identifier: MIT
//! The events of streams in chunks of each size are those of the whole.
use escape_stream::{Event, Parameters, Parser, StringEnd, dcs_numbers, osc_number, osc_parts};

// The events that were handed out, in a form in which a run is the same as its characters or bytes
// by themselves.
fn log(stream: &[u8], size: usize, limit: usize) -> Vec<String> {
    let mut log = Vec::new();
    let mut parser = Parser::with_limit(limit);
    for chunk in stream.chunks(size) {
        let act = |event: Event<'_>| match event {
            Event::Text(run) => log.extend(run.chars().map(|c| format!("{c:?}"))),
            Event::Character(c) => log.push(format!("{c:?}")),
            Event::Data(bytes) => log.extend(bytes.iter().map(|b| format!("data {b}"))),
            other => log.push(format!("{other:?}")),
        };
        parser.advance(chunk, act).unwrap();
    }
    log
}

const STREAMS: [&[u8]; 7] = [
    b"plain \x1b[31mred\x1b[m\r\n caf\xc3\xa9 \xe2\x82\xac \xf0\x9f\x98\x80 \xff\xe2\x82(",
    b"\x1b]0;a title\x07\x1b]8;;http://example.com/\x1b\\\x1b]0;cut\x18\x1b]\x07",
    b"\x1bP1;2;3q#0~~@@vv\n\x7f\xc3\xa9\x1b\\\x1bP+q544e\x1b\\\x1bP1:2q never\x1b\\",
    b"\x1b_Gi=1,a=q;AAAA\x1b\\\x1bXno\x1b^no\x9cyes",
    b"\x1b[?25;1004h\x1b[38:2::1:2:3m\x1b[1;\n2H\x1b[1 q\x1b[5;\x18\x9b7m\xc2\x9b8m",
    b"\x1b(B\x1b#8\x1b $%&'x\x1b7\x1b\x1bc\x1b\n=\x85\xc2\x85\x9c",
    b"",
];

#[test]
fn in_chunks() {
    for stream in STREAMS {
        for limit in [0, 1, 8, 4096] {
            let whole = log(stream, stream.len().max(1), limit);
            for size in 1..=20 {
                assert_eq!(
                    log(stream, size, limit),
                    whole,
                    "chunks of {size} of {stream:?}"
                );
            }
        }
    }
}

#[test]
fn past_the_limit() {
    let stream =
        b"\x1b]0;abcdefg\x07a\x1b]0;abcdef\x18\x1b_Gabcdefgh\x1b\\\x1bP1;2;3;4;5qdata\x1b\\";
    let found = [
        "Limit",
        "'a'",
        "Osc([48, 59, 97, 98, 99, 100, 101, 102])",
        "Control(24)",
        "Limit",
        "Escape { intermediates: [], has_more: false, byte: 92 }",
        "Limit",
        "Escape { intermediates: [], has_more: false, byte: 92 }",
    ];
    for size in 1..=stream.len() {
        assert_eq!(log(stream, size, 8), found, "chunks of {size}");
    }
}

#[test]
fn each_event() {
    let told = [
        "'\u{e9}'",
        "Control(10)",
        "Csi { entries: [1, Some(';'), 31], has_more: false, byte: 109 }",
        "Escape { intermediates: [40], has_more: false, byte: 66 }",
        "Osc([48, 59, 97])",
        "Dcs { parameters: [49], intermediates: [36], has_more: false, byte: 113 }",
        "data 109",
        "DcsEnd",
        "Escape { intermediates: [], has_more: false, byte: 92 }",
        "Apc([71])",
    ];
    let stream = b"\xc3\xa9\n\x1b[1;31m\x1b(B\x1b]0;a\x07\x1bP1$qm\x1b\\\x1b_G\x9c";
    assert_eq!(log(stream, 100, 100), told);
}

type Said = (Option<u8>, Vec<Vec<Option<i64>>>, Vec<u8>);

#[test]
fn parameters_by_entries() {
    let rows: [(&[u8], Said); 6] = [
        (b"\x1b[m", (None, vec![], vec![])),
        (b"\x1b[?$p", (Some(b'?'), vec![], vec![b'$'])),
        (b"\x1b[;H", (None, vec![vec![None], vec![None]], vec![])),
        (b"\x1b[:m", (None, vec![vec![None, None]], vec![])),
        (
            b"\x1b[>4:3;07 q",
            (
                Some(b'>'),
                vec![vec![Some(4), Some(3)], vec![Some(7)]],
                vec![b' '],
            ),
        ),
        (
            b"\x1b[99999999999999999999A",
            (None, vec![vec![Some(i64::MAX)]], vec![]),
        ),
    ];
    for (stream, said) in rows {
        let mut count = 0;
        let act = |event: Event<'_>| {
            if let Event::Csi { entries, .. } = event {
                let it = Parameters::of(entries);
                let numbers = it.iter().map(Iterator::collect).collect();
                let found = (it.private_prefix(), numbers, it.intermediates().collect());
                assert_eq!(found, said, "{}", stream.escape_ascii());
                count += 1;
            }
        };
        Parser::new().advance(stream, act).unwrap();
        assert_eq!(count, 1, "{}", stream.escape_ascii());
    }
}

#[test]
fn parts_of_strings() {
    assert_eq!(dcs_numbers(b"").count(), 0);
    assert_eq!(dcs_numbers(b";").collect::<Vec<_>>(), [None, None]);
    let long = [b'9'; 5000];
    assert_eq!(dcs_numbers(&long).collect::<Vec<_>>(), [Some(i64::MAX)]);
    assert_eq!(osc_parts(b"").count(), 1);
    let numbers: [(&[u8], Option<u32>); 6] = [
        (b"", None),
        (b";0", None),
        (b"1x;", None),
        (b"007", Some(7)),
        (b"4294967295;", Some(u32::MAX)),
        (b"4294967296;", None),
    ];
    for (text, number) in numbers {
        assert_eq!(osc_number(text), number);
    }
}

#[test]
fn how_strings_end() {
    use StringEnd::{Bell, C1, Cancelled, Escape};
    let rows: [(&[u8], &[StringEnd]); 9] = [
        (b"a\x1b[m\x1b7\n\xc3\xa9\xff", &[]),
        (b"\x1b]0;\x07\x1b]0;a\x07", &[Bell, Bell]),
        (b"\x1b]0;a\x1b\\\x1bPqb\x1bM", &[Escape, Escape]),
        (b"\x1b]\x18\x1b_b\x1a", &[Cancelled, Cancelled]),
        (b"\x1b]a\x9c\x9d0;b\xc2\x9c", &[C1(0x9c), C1(0x9c)]),
        (b"\x1bPq\x07\x9b\x9fc\xc2\x9d", &[C1(0x9b), C1(0x9d)]),
        (b"\x1bP1q\xc2\x9cd", &[C1(0x9c)]),
        (b"\x1b]0;abcdefg\x07\x1b_abcdefghi\x9c", &[Bell, C1(0x9c)]),
        (b"\x1bP123456789qa\x1b\\", &[]),
    ];
    for (stream, ends) in rows {
        for size in 1..=stream.len() {
            let mut found = Vec::new();
            let mut parser = Parser::with_limit(8);
            for chunk in stream.chunks(size) {
                let act = |event: Event<'_>, taken: &[u8]| {
                    found.extend(StringEnd::of(&event, taken));
                    true
                };
                assert_eq!(parser.advance_while(chunk, act), Ok(chunk.len()));
            }
            assert_eq!(found, ends, "{} by {size}", stream.escape_ascii());
        }
    }
}
