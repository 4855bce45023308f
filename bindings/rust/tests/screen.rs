// SPDX-License-Identifier: MIT
//! The screen: cells, the cursor, titles, links, requests and rows that are scrolled off, for a
//! stream in chunks of each size.
#![cfg(feature = "oneshot")]
use escape_stream::screen::{Color, Parser, Request, Underline};

fn parser(stream: &[u8]) -> Parser {
    let mut parser = Parser::new(3, 10, 2).unwrap();
    parser.process(stream).unwrap();
    parser
}

#[test]
fn text() {
    let parser = parser(b"50%\rdone\r\n\x1b[3;2Hlast\x1b[3;3H\x1b[X");
    let screen = parser.screen();
    assert_eq!(screen.size(), (3, 10));
    assert_eq!(screen.contents(), "done\n\n l st");
    assert_eq!(screen.cursor_position(), (2, 2));
    let rows: Vec<_> = screen.rows(1, 3).collect();
    assert_eq!(rows, ["one", "", "l s"]);
    assert!(screen.cell(3, 0).is_none() && screen.cell(0, 10).is_none());
    assert!(!screen.cell(1, 0).unwrap().has_contents());
}

#[test]
fn looks() {
    let parser = parser(b"\x1b[1;3;4;7;31;48;5;196ma\x1b[0;2;38;2;1;2;3;4:3;58;5;7mb\x1b[m.");
    let screen = parser.screen();
    let a = screen.cell(0, 0).unwrap();
    assert!(a.bold() && a.italic() && a.underline() && a.inverse() && !a.dim());
    assert_eq!((a.fgcolor(), a.bgcolor()), (Color::Idx(1), Color::Idx(196)));
    let b = screen.cell(0, 1).unwrap();
    assert!(b.dim() && !b.bold());
    assert_eq!(
        (b.fgcolor(), b.bgcolor()),
        (Color::Rgb(1, 2, 3), Color::Default)
    );
    assert_eq!(b.underline_kind(), Underline::Curly);
    assert_eq!(b.underline_color(), Color::Idx(7));
    assert_eq!(screen.cell(0, 2).unwrap().fgcolor(), Color::Default);
}

#[test]
fn widths() {
    let parser = parser("a日e\u{301}".as_bytes());
    let screen = parser.screen();
    assert!(screen.cell(0, 1).unwrap().is_wide());
    assert!(screen.cell(0, 2).unwrap().is_wide_continuation());
    assert_eq!(screen.cell(0, 2).unwrap().contents(), "");
    assert_eq!(screen.cell(0, 3).unwrap().contents(), "e\u{301}");
    assert_eq!(screen.contents(), "a日e\u{301}");
}

#[test]
fn wraps() {
    let mut parser = parser(b"0123456789");
    assert!(parser.screen().wrap_pending() && !parser.screen().row_wrapped(0));
    parser.process(b"ab").unwrap();
    assert!(parser.screen().row_wrapped(0) && !parser.screen().row_wrapped(1));
    assert_eq!(parser.screen().contents(), "0123456789ab");
}

#[test]
fn strings() {
    let parser = parser(
        b"\x1b]0;both\x07\x1b]2;a title\x07\
          \x1b]8;id=n;http://a/\x07x\x1b]8;;http://b/\x07y\x1b]8;;\x07z",
    );
    let screen = parser.screen();
    assert_eq!((screen.title(), screen.icon_name()), ("a title", "both"));
    let link = |col| {
        screen
            .cell(0, col)
            .unwrap()
            .link()
            .map(|at| &screen.links()[at])
    };
    assert_eq!(link(0).unwrap().address, "http://a/");
    assert_eq!(link(0).unwrap().id.as_deref(), Some("n"));
    assert_eq!(link(1).unwrap().address, "http://b/");
    assert_eq!(link(1).unwrap().id, None);
    assert_eq!(link(2), None);
}

#[test]
fn requests() {
    let mut parser = parser(b"\x1b[c\x1b[6n\x1b[?2026$p");
    assert_eq!(
        parser.requests(),
        [
            Request::PrimaryAttributes,
            Request::CursorPosition,
            Request::PrivateModeState(2026)
        ]
    );
    parser.process(b"a").unwrap();
    assert_eq!(parser.requests(), []);
}

#[test]
fn scrolled() {
    let mut parser = parser(b"a\r\nb\r\nc\r\nd\r\ne\r\nf");
    assert_eq!(parser.scrolled_count(), 3);
    let rows = parser.scrolled().unwrap();
    assert_eq!(rows.len(), 2);
    assert_eq!((rows[0][0].contents(), rows[1][0].contents()), ("b", "c"));
}

// Rows and cursors are those that xterm 379 has without saved lines.
#[test]
fn sizes() {
    let mut parser = parser(b"1\r\n2\r\nabc");
    parser.set_size(2, 2).unwrap();
    assert_eq!(parser.screen().size(), (2, 2));
    assert_eq!(parser.screen().contents(), "2\nab");
    assert_eq!(parser.screen().cursor_position(), (1, 1));
    assert_eq!(parser.scrolled_count(), 1);
    let rows = parser.scrolled().unwrap();
    assert_eq!((rows[0][0].contents(), rows[0].len()), ("1", 10));
    parser.set_size(4, 3).unwrap();
    assert_eq!(parser.screen().contents(), "2\nab");
    assert_eq!(parser.screen().cells().count(), 4);
    parser.set_size(0, 0).unwrap();
    assert_eq!(parser.screen().size(), (1, 1));
    assert_eq!(parser.screen().contents(), "a");
}

#[test]
fn chunks() {
    let stream =
        "\x1b]0;t\x07café 日\x1b[1;32mok\x1b[m\r\n\x1b[2;3r\n\n\x1b[?25l\x1b[?1049h日本".as_bytes();
    let whole = parser(stream);
    assert!(whole.screen().hide_cursor() && whole.screen().alternate_screen());
    for size in 1..stream.len() {
        let mut parser = Parser::new(3, 10, 2).unwrap();
        for chunk in stream.chunks(size) {
            parser.process(chunk).unwrap();
        }
        let (screen, wanted) = (parser.screen(), whole.screen());
        assert!(screen.cells().eq(wanted.cells()), "{size}");
        assert_eq!(screen.cursor_position(), wanted.cursor_position());
        assert_eq!(screen.title(), wanted.title());
        assert_eq!(screen.icon_name(), wanted.icon_name());
    }
}

#[test]
fn moves_between_threads() {
    fn is_free<T: std::fmt::Debug + Send + Sync + 'static>() {}
    is_free::<Parser>();
}
