// SPDX-License-Identifier: MIT
//! A program over the crate vte: it prints each call. Its Cargo.toml has one line of this
//! project's.
use std::io::{self, Read};
use vte::{Params, Parser, Perform};

struct Log;

impl Perform for Log {
    fn print(&mut self, c: char) {
        print!("{c}");
    }

    fn execute(&mut self, byte: u8) {
        print!("<{byte:02x}>");
    }

    fn osc_dispatch(&mut self, params: &[&[u8]], bell_terminated: bool) {
        let parts: Vec<_> = params
            .iter()
            .map(|it| String::from_utf8_lossy(it))
            .collect();
        print!("<osc {} {bell_terminated}>", parts.join("|"));
    }

    fn csi_dispatch(&mut self, params: &Params, intermediates: &[u8], _: bool, action: char) {
        let numbers: Vec<_> = params.iter().map(|it| it[0].to_string()).collect();
        let prefix = String::from_utf8_lossy(intermediates);
        print!("<csi {prefix}{}{action}>", numbers.join(";"));
    }
}

fn main() {
    let mut bytes = Vec::new();
    io::stdin()
        .lock()
        .read_to_end(&mut bytes)
        .expect("a stream");
    let mut parser = Parser::new();
    for chunk in bytes.chunks(7) {
        parser.advance(&mut Log, chunk);
    }
    println!();
}
