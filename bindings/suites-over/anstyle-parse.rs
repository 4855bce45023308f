// SPDX-License-Identifier: MIT
//! The calls of the crate `anstyle-parse` over the parser of escape-stream, for the tests of
//! `anstream`, and the states of that crate as they are.
#[path = "{state}"]
#[allow(dead_code, unused, unexpected_cfgs)]
pub mod state;

pub use escape_stream::vte::{Params, ParamsIter};
use escape_stream::vte::{self, by_byte};
use std::marker::PhantomData;

#[derive(Clone, Debug, Default, PartialEq, Eq)]
pub struct Utf8Parser;

pub type DefaultCharAccumulator = Utf8Parser;

/// A parser. Two are equal for what compares the objects that hold them.
#[derive(Clone, Debug, Default)]
pub struct Parser<C = DefaultCharAccumulator> {
    parser: by_byte::Parser,
    accumulator: PhantomData<C>,
}

impl<C> PartialEq for Parser<C> {
    fn eq(&self, _: &Parser<C>) -> bool {
        true
    }
}

impl<C> Eq for Parser<C> {}

impl<C> Parser<C> {
    pub fn new() -> Parser {
        Parser::default()
    }

    pub fn advance<P: Perform>(&mut self, performer: &mut P, byte: u8) {
        self.parser.advance(&mut Over(performer), byte);
    }
}

pub trait Perform {
    fn print(&mut self, _: char) {}
    fn execute(&mut self, _: u8) {}
    fn hook(&mut self, _: &Params, _: &[u8], _: bool, _: u8) {}
    fn put(&mut self, _: u8) {}
    fn unhook(&mut self) {}
    fn osc_dispatch(&mut self, _: &[&[u8]], _: bool) {}
    fn csi_dispatch(&mut self, _: &Params, _: &[u8], _: bool, _: u8) {}
    fn esc_dispatch(&mut self, _: &[u8], _: bool, _: u8) {}
}

struct Over<'a, P>(&'a mut P);

impl<P: Perform> vte::Perform for Over<'_, P> {
    fn print(&mut self, c: char) {
        self.0.print(c);
    }

    fn execute(&mut self, byte: u8) {
        self.0.execute(byte);
    }

    fn hook(&mut self, params: &Params, intermediates: &[u8], ignore: bool, action: char) {
        self.0.hook(params, intermediates, ignore, action as u8);
    }

    fn put(&mut self, byte: u8) {
        self.0.put(byte);
    }

    fn unhook(&mut self) {
        self.0.unhook();
    }

    fn osc_dispatch(&mut self, params: &[&[u8]], bell_terminated: bool) {
        self.0.osc_dispatch(params, bell_terminated);
    }

    fn csi_dispatch(&mut self, params: &Params, intermediates: &[u8], ignore: bool, action: char) {
        self.0.csi_dispatch(params, intermediates, ignore, action as u8);
    }

    fn esc_dispatch(&mut self, intermediates: &[u8], ignore: bool, byte: u8) {
        self.0.esc_dispatch(intermediates, ignore, byte);
    }
}
