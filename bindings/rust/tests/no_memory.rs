// SPDX-License-Identifier: MIT
//! Borrowed actions take no memory of the crate's, once there is room for the longest, and a parser
//! with the calls of vte takes little at first.
use escape_stream::action::Parser;
use escape_stream::borrowed::Action;
use escape_stream::vte;
use std::alloc::{GlobalAlloc, Layout, System};
use std::cell::Cell;
use std::mem::size_of_val;

thread_local! {
    static REQUESTS: Cell<u64> = const { Cell::new(0) };
    static BYTES: Cell<usize> = const { Cell::new(0) };
}

// The system's memory. It counts what each thread asks for.
struct Counted;

fn count(size: usize) {
    let _ = REQUESTS.try_with(|requests| requests.set(requests.get() + 1));
    let _ = BYTES.try_with(|bytes| bytes.set(bytes.get() + size));
}

// SAFETY: each call is that of `System` with the same arguments.
unsafe impl GlobalAlloc for Counted {
    unsafe fn alloc(&self, layout: Layout) -> *mut u8 {
        count(layout.size());
        unsafe { System.alloc(layout) }
    }

    unsafe fn dealloc(&self, pointer: *mut u8, layout: Layout) {
        unsafe { System.dealloc(pointer, layout) }
    }

    unsafe fn realloc(&self, pointer: *mut u8, layout: Layout, size: usize) -> *mut u8 {
        count(size);
        unsafe { System.realloc(pointer, layout, size) }
    }
}

#[global_allocator]
static MEMORY: Counted = Counted;

const STREAM: &[u8] =
    b"some text\xff\n\x1b[1;38;2;1;2;3m\x1b(B\x1b]2;title\x07\x1b]8;id=1;uri\x1b\\\
    \x1b]8;a=b:id=1;uri\x1b\\\x1b]52;c;aGVsbG8=\x07\x1b]4;1;?;2;#123456\x07\x1b]133;D;1;aid=2\x07\
    \x1b]1337;File=name=bmFtZQ==;inline=1:aGVsbG8=\x07\x1b]777;a;b\x07\x1b]99;a;b\x07\
    \x1bP1$qm\x1b\\\x1bP+q544e;436f\x1b\\\x1bP1;2|data\x1b\\\x1b_Gf=24,s=10,v=20;AAAA\x1b\\";

#[test]
fn borrowed_actions_take_none() {
    let mut stream = STREAM.to_vec();
    // (builds with assertions make another image to compare it with)
    if !cfg!(debug_assertions) {
        stream.extend_from_slice(b"\x1bPq#1;2;9;8;7~~!9?-\x1b\\");
    }
    let mut parser = Parser::new();
    let mut counts = [0; 2];
    let mut requests = [0; 2];
    for pass in 0..2 {
        let before = REQUESTS.with(Cell::get);
        for chunk in stream.chunks(7) {
            parser.parse_borrowed(chunk, |action| {
                counts[pass] += usize::from(!matches!(action, Action::Esc(_)));
            });
        }
        requests[pass] = REQUESTS.with(Cell::get) - before;
    }
    assert_eq!(parser.failure(), None);
    assert_eq!(counts[0], counts[1]);
    assert!(counts[0] > 20, "{counts:?}");
    assert!(requests[0] > 0 && requests[1] == 0, "{requests:?}");
}

#[test]
fn a_parser_of_vte_begins_small() {
    let before = BYTES.with(Cell::get);
    let parser = vte::Parser::new();
    let taken = size_of_val(&parser) + BYTES.with(Cell::get) - before;
    assert!(taken < 1 << 16, "{taken} bytes");
}
