// SPDX-License-Identifier: MIT
//! The calls that take a stream in chunks: a filter, a sanitizer, a page and a normaliser.
use super::{NOT_BEGUN, done, number};
use crate::{Account, Error, Policy};

extern "C" {
    fn escape_stream_filter_begin(filter: *mut Filter, policy: u32, limit: usize) -> u32;
    fn escape_stream_filter_feed(filter: *mut Filter, bytes: *const u8, length: usize) -> u32;
    fn escape_stream_filter_finish(filter: *mut Filter) -> u32;
    fn escape_stream_filter_output(
        filter: *mut Filter,
        from: usize,
        out: *mut u8,
        capacity: usize,
    ) -> usize;
    fn escape_stream_filter_end(filter: *mut Filter);
    fn escape_stream_html_begin(
        page: *mut Page,
        per_line: bool,
        is_inline: bool,
        limit: usize,
    ) -> u32;
    fn escape_stream_html_feed(page: *mut Page, bytes: *const u8, length: usize) -> u32;
    fn escape_stream_html_finish(page: *mut Page) -> u32;
    fn escape_stream_html_output(
        page: *mut Page,
        from: usize,
        out: *mut u8,
        capacity: usize,
    ) -> usize;
    fn escape_stream_html_end(page: *mut Page);
    fn escape_stream_normal_begin(normaliser: *mut Normaliser, limit: usize) -> u32;
    fn escape_stream_normal_feed(
        normaliser: *mut Normaliser,
        bytes: *const u8,
        length: usize,
    ) -> u32;
    fn escape_stream_normal_finish(normaliser: *mut Normaliser) -> u32;
    fn escape_stream_normal_output(
        normaliser: *mut Normaliser,
        from: usize,
        out: *mut u8,
        capacity: usize,
    ) -> usize;
    fn escape_stream_normal_end(normaliser: *mut Normaliser);
    fn escape_stream_sanitizer_begin(
        sanitizer: *mut Sanitizer,
        options: *const SanitizerOptions,
    ) -> u32;
    fn escape_stream_sanitizer_feed(
        sanitizer: *mut Sanitizer,
        bytes: *const u8,
        length: usize,
    ) -> u32;
    fn escape_stream_sanitizer_finish(sanitizer: *mut Sanitizer) -> u32;
    fn escape_stream_sanitizer_output(
        sanitizer: *mut Sanitizer,
        from: usize,
        out: *mut u8,
        capacity: usize,
    ) -> usize;
    fn escape_stream_sanitizer_account(sanitizer: *mut Sanitizer, account: *mut Account) -> u32;
    fn escape_stream_sanitizer_end(sanitizer: *mut Sanitizer);
}

const TOO_MANY_ROWS: u32 = 14;
const TOO_MANY_COLUMNS: u32 = 15;

// The common parts: the struct, whose fields are the library's, and the calls but that
// which begins it. Its pointee is in use by it alone, since it is never copied.
macro_rules! in_chunks {
    ($(#[$doc:meta])* $name:ident, $feed:ident, $finish:ident, $output:ident, $end:ident) => {
        $(#[$doc])*
        #[repr(C)]
        #[derive(Debug)]
        pub struct $name {
            is_begun: bool,
            state: *mut u8,
        }

        // SAFETY: the library keeps nothing of a thread, and its memory is that of `malloc`, which
        // any thread may give back. The header asks for one caller at a time.
        unsafe impl Send for $name {}

        // SAFETY: no call takes a shared reference.
        unsafe impl Sync for $name {}

        impl $name {
            /// One that is not begun.
            pub fn ended() -> $name {
                $name {
                    is_begun: false,
                    state: core::ptr::null_mut(),
                }
            }

            /// Takes a chunk.
            pub fn feed(&mut self, bytes: &[u8]) -> Result<(), Error> {
                // SAFETY: as in `begin`. By clause `refused` there is no other status than these.
                match unsafe { $feed(self, bytes.as_ptr(), bytes.len()) } {
                    NOT_BEGUN => Err(Error::Failed),
                    status => done(status, ()),
                }
            }

            /// Ends the stream.
            pub fn finish(&mut self) -> Result<(), Error> {
                // SAFETY: as in `begin`. By clause `refused` there is no other status than these.
                match unsafe { $finish(self) } {
                    NOT_BEGUN => Err(Error::Failed),
                    status => done(status, ()),
                }
            }

            /// Writes the text that the last call added, from a byte of it on, and says how much.
            pub fn output(&mut self, from: usize, out: &mut [u8]) -> usize {
                // SAFETY: as in `begin`. Clause `copied` says what `out` holds, initialized all of
                // it, and that the count is within it.
                unsafe { $output(self, from, out.as_mut_ptr(), out.len()) }
            }

            /// Gives back its memory.
            pub fn end(&mut self) {
                // SAFETY: as in `begin`.
                unsafe { $end(self) }
            }
        }
    };
}

in_chunks! {
    /// A filter of a stream in chunks.
    Filter,
    escape_stream_filter_feed,
    escape_stream_filter_finish,
    escape_stream_filter_output,
    escape_stream_filter_end
}

in_chunks! {
    /// A page of a stream in chunks.
    Page,
    escape_stream_html_feed,
    escape_stream_html_finish,
    escape_stream_html_output,
    escape_stream_html_end
}

in_chunks! {
    /// The normal form of a stream in chunks.
    Normaliser,
    escape_stream_normal_feed,
    escape_stream_normal_finish,
    escape_stream_normal_output,
    escape_stream_normal_end
}

in_chunks! {
    /// A sanitizer of a stream in chunks.
    Sanitizer,
    escape_stream_sanitizer_feed,
    escape_stream_sanitizer_finish,
    escape_stream_sanitizer_output,
    escape_stream_sanitizer_end
}

impl Filter {
    /// Begins a stream.
    pub fn begin(&mut self, policy: Policy, limit: usize) -> Result<(), Error> {
        // SAFETY: the reference is what the type asks for, and the filter is as a call or `ended`
        // left it: if it is begun, its pointer is one that a call put there.
        let status = unsafe { escape_stream_filter_begin(self, number(policy), limit) };
        done(status, ())
    }
}

impl Page {
    /// Begins a stream.
    pub fn begin(&mut self, per_line: bool, is_inline: bool, limit: usize) -> Result<(), Error> {
        // SAFETY: as of a filter.
        let status = unsafe { escape_stream_html_begin(self, per_line, is_inline, limit) };
        done(status, ())
    }
}

impl Normaliser {
    /// Begins a stream.
    pub fn begin(&mut self, limit: usize) -> Result<(), Error> {
        // SAFETY: as of a filter.
        let status = unsafe { escape_stream_normal_begin(self, limit) };
        done(status, ())
    }
}

impl Sanitizer {
    /// Begins a stream.
    pub fn begin(&mut self, options: &SanitizerOptions) -> Result<(), Error> {
        // SAFETY: as of a filter; the options are what the type asks for. By clause `wrong` each
        // other status says which of them is none, and of those that are made here the rows and
        // columns alone can be.
        match unsafe { escape_stream_sanitizer_begin(self, options) } {
            TOO_MANY_ROWS => Err(Error::TooManyRows),
            TOO_MANY_COLUMNS => Err(Error::TooManyColumns),
            status => done(status, ()),
        }
    }

    /// The account of the stream.
    pub fn account(&mut self) -> Result<Account, Error> {
        let mut account = Account::default();
        // SAFETY: as in `begin`; the account is what the type asks for. By clause `refused` there
        // is no other status than these, and the account is as it was after the last.
        match unsafe { escape_stream_sanitizer_account(self, &mut account) } {
            NOT_BEGUN => Err(Error::Failed),
            status => done(status, account),
        }
    }
}

/// How a stream is sanitized.
#[repr(C)]
#[derive(Clone, Copy, Debug)]
pub struct SanitizerOptions {
    size: u32,
    policy: u32,
    pub limit: u64,
    pub allowed: u32,
    pub denied: u32,
    pub links: u32,
    pub framing: u32,
    pub characters: u32,
    pub returns: u32,
    pub encoding: u32,
    pub show: u32,
    pub rows: u32,
    pub columns: u32,
    pub account: u32,
    reserved: u32,
}

impl SanitizerOptions {
    /// The usual options of this policy, without a limit.
    pub fn of(policy: Policy) -> SanitizerOptions {
        SanitizerOptions {
            size: core::mem::size_of::<SanitizerOptions>() as u32,
            policy: number(policy),
            limit: 0,
            allowed: 0,
            denied: 0,
            links: 0,
            framing: 0,
            characters: 0,
            returns: 0,
            encoding: 0,
            show: 0,
            rows: 0,
            columns: 0,
            account: 0,
            reserved: 0,
        }
    }
}
