// SPDX-License-Identifier: MIT
//! The time that the parser of actions of the crate `escape-stream` takes for a stream: `actions
//! FILE CHUNK PASSES`, as vte.rs says. Each action is counted, and the lengths of texts are added
//! up; then it is dropped, with the memory that it took. It is built with one of `--cfg parse`,
//! `parse_kept`, `parse_borrowed` and `parse_borrowed_kept`: with one call of the parser alone,
//! whose closure is inlined as in a program that has one. By `kept` each action is wanted whole, in
//! memory.
#[cfg(any(parse, parse_kept))]
use escape_stream::action::Action;
use escape_stream::action::Parser;
#[cfg(any(parse_borrowed, parse_borrowed_kept))]
use escape_stream::borrowed::Action;
use std::hint::black_box;
use std::{env, fs};

#[derive(Default)]
struct Count {
    characters: u64,
    actions: u64,
    sum: u64,
}

impl Count {
    #[cfg(any(parse, parse_kept))]
    fn add(&mut self, action: Action) {
        match action {
            Action::Print(c) => self.add_character(c),
            Action::PrintString(text) => self.add_text(&text),
            Action::CSI(sequence) => self.add_sequence(sequence.params.len(), sequence.control),
            other => self.add_other(other),
        }
    }

    #[cfg(any(parse_borrowed, parse_borrowed_kept))]
    fn add(&mut self, action: Action<'_>) {
        match action {
            Action::Print(c) => self.add_character(c),
            Action::PrintString(text) => self.add_text(text),
            Action::CSI(sequence) => self.add_sequence(sequence.params.len(), sequence.control),
            other => self.add_other(other),
        }
    }

    fn add_character(&mut self, c: char) {
        self.characters += 1;
        self.sum ^= c as u64;
    }

    fn add_text(&mut self, text: &str) {
        self.characters += 1;
        self.sum += black_box(text).len() as u64;
    }

    fn add_sequence(&mut self, params: usize, control: u8) {
        self.actions += 1;
        self.sum += params as u64 + u64::from(control);
    }

    // Out of the way of what comes most often.
    #[inline(never)]
    fn add_other<T>(&mut self, action: T) {
        self.actions += 1;
        drop(action);
    }
}

fn main() {
    let words: Vec<String> = env::args().collect();
    let [_, path, chunk, passes] = &words[..] else {
        panic!("actions FILE CHUNK PASSES")
    };
    let data = fs::read(path).unwrap();
    let mut count = Count::default();
    for _ in 0..passes.parse().unwrap() {
        let mut parser = Parser::new();
        for chunk in data.chunks(chunk.parse().unwrap()) {
            #[cfg(parse)]
            parser.parse(chunk, |action| count.add(action));
            #[cfg(parse_kept)]
            parser.parse(chunk, |action| count.add(black_box(action)));
            #[cfg(parse_borrowed)]
            parser.parse_borrowed(chunk, |action| count.add(action));
            #[cfg(parse_borrowed_kept)]
            parser.parse_borrowed(chunk, |action| count.add(black_box(action)));
        }
        assert_eq!(parser.failure(), None);
    }
    println!("{} {} {}", count.characters, count.actions, count.sum);
}
