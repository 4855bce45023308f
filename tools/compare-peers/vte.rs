// SPDX-License-Identifier: MIT
//! The time that vte, the parser of Alacritty, takes for a stream: `vte FILE CHUNK PASSES` reads
//! the file and gives it to a new parser in chunks of so many bytes, so many times. Each call of
//! the actor is counted and its arguments are added up, as the actor of `bench` does, so nothing of
//! the work is optimised away. With `--cfg per_byte` the parser has the calls of vte before 0.14.
use std::{env, fs};

#[derive(Default)]
struct Count {
    characters: u64,
    events: u64,
    sum: u64,
}

impl vte::Perform for Count {
    fn print(&mut self, c: char) {
        self.characters += 1;
        self.sum ^= c as u64;
    }

    fn execute(&mut self, byte: u8) {
        self.events += 1;
        self.sum += u64::from(byte);
    }

    fn hook(&mut self, params: &vte::Params, _: &[u8], _: bool, _: char) {
        self.events += 1;
        self.sum += params.len() as u64;
    }

    fn put(&mut self, byte: u8) {
        self.sum += u64::from(byte);
    }

    fn unhook(&mut self) {
        self.events += 1;
    }

    fn osc_dispatch(&mut self, params: &[&[u8]], _: bool) {
        self.events += 1;
        self.sum += params.len() as u64;
    }

    fn csi_dispatch(&mut self, params: &vte::Params, _: &[u8], _: bool, action: char) {
        self.events += 1;
        self.sum += params.len() as u64 + action as u64;
    }

    fn esc_dispatch(&mut self, _: &[u8], _: bool, byte: u8) {
        self.events += 1;
        self.sum += u64::from(byte);
    }
}

fn main() {
    let words: Vec<String> = env::args().collect();
    let [_, path, chunk, passes] = &words[..] else {
        panic!("vte FILE CHUNK PASSES")
    };
    let data = fs::read(path).unwrap();
    let mut count = Count::default();
    for _ in 0..passes.parse().unwrap() {
        let mut parser = vte::Parser::new();
        for chunk in data.chunks(chunk.parse().unwrap()) {
            #[cfg(per_byte)]
            for byte in chunk {
                parser.advance(&mut count, *byte);
            }
            #[cfg(not(per_byte))]
            parser.advance(&mut count, chunk);
        }
    }
    println!("{} {} {}", count.characters, count.events, count.sum);
}
