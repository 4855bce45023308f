// SPDX-License-Identifier: MIT
//! A stream in chunks gives the same page whatever the chunks are, in each layout.
#![cfg(feature = "oneshot")]
use escape_stream::Error;
use escape_stream::html::{ChunkPage, Layout};

const STREAM: &[u8] =
    b"<b>\x1b[1;31mred\n\x1b]8;;http://a/?b&c=\"\x1b\\x\x1b]8;;\x07\x1b[m\x1b]0;t\x07 \xff\x1b[4m_";

fn page(layout: Layout, size: usize) -> String {
    let mut html = Vec::new();
    let mut page = ChunkPage::with_limit(layout, 1000).unwrap();
    for chunk in STREAM.chunks(size) {
        page.feed(chunk).unwrap();
        page.output(|part| html.extend_from_slice(part));
    }
    page.finish().unwrap();
    page.output(|part| html.extend_from_slice(part));
    String::from_utf8(html).unwrap()
}

fn wants(per_line: bool, inline: bool, wanted: &str) {
    for size in 1..=STREAM.len() {
        assert_eq!(page(Layout { per_line, inline }, size), wanted, "{size}");
    }
}

#[test]
fn with_classes() {
    wants(
        false,
        false,
        "&lt;b&gt;<span class=\"es-bold es-fg-red\">red\n</span>\
         <a href=\"http://a/?b&amp;c=&quot;\" rel=\"nofollow noopener noreferrer\">\
         <span class=\"es-bold es-fg-red\">x</span></a> \u{fffd}<span class=\"es-underline\">_</span>",
    );
}

#[test]
fn with_styles_line_by_line() {
    wants(
        true,
        true,
        "&lt;b&gt;<span style=\"font-weight:bold;color:#b3261e;\">red</span>\n\
         <a href=\"http://a/?b&amp;c=&quot;\" rel=\"nofollow noopener noreferrer\">\
         <span style=\"font-weight:bold;color:#b3261e;\">x</span></a> \u{fffd}\
         <span style=\"text-decoration-line: underline;\">_</span>",
    );
}

#[test]
fn after_the_end() {
    let mut page = ChunkPage::new(Layout::default()).unwrap();
    page.feed(b"\x1b[1ma").unwrap();
    page.finish().unwrap();
    let mut closing = [0; 16];
    assert_eq!(page.output_from(0, &mut closing), 7);
    assert_eq!(&closing[..7], b"</span>");
    assert_eq!(page.finish(), Ok(()));
    assert_eq!(page.feed(b"b"), Err(Error::Failed));
    assert_eq!(page.finish(), Err(Error::Failed));
    assert_eq!(page.output_from(0, &mut closing), 0);
}
