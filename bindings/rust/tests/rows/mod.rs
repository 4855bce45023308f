// SPDX-License-Identifier: MIT
//! The rows of the tables of streams. docs/DEVELOPING.md has their form.
use std::{fs, path::Path, str};

// The lines of a row.
pub struct Row<'a>(Vec<&'a str>);

impl Row<'_> {
    // The word of each line, and its text, as often as it says.
    pub fn lines(&self) -> impl Iterator<Item = (&str, String)> {
        self.0.iter().map(|line| {
            let (head, text) = line.split_once(' ').unwrap_or((line, ""));
            let (name, times) = head.split_once('*').unwrap_or((head, "1"));
            (name, text.trim_start().repeat(times.parse().unwrap()))
        })
    }

    // The bytes that its lines of this word stand for, joined.
    pub fn bytes(&self, word: &str) -> Option<Vec<u8>> {
        let mut found = None;
        for (name, text) in self.lines() {
            if name == word {
                found.get_or_insert_with(Vec::new).extend(unescaped(&text));
            }
        }
        found
    }

    pub fn name(&self) -> &str {
        self.0.first().unwrap_or(&"")
    }
}

// `\xNN` is a byte, `\\` is `\`, any other character is itself.
pub fn unescaped(text: &str) -> Vec<u8> {
    let mut bytes = Vec::new();
    let mut rest = text.as_bytes();
    while let [first, more @ ..] = rest {
        rest = more;
        match (first, more) {
            (b'\\', [b'x', high, low, after @ ..]) => {
                bytes
                    .push(u8::from_str_radix(str::from_utf8(&[*high, *low]).unwrap(), 16).unwrap());
                rest = after;
            }
            (b'\\', [b'\\', after @ ..]) => {
                bytes.push(b'\\');
                rest = after;
            }
            _ => bytes.push(*first),
        }
    }
    bytes
}

// Calls `check` on each row of the tables, and returns how many there are of which it returns true.
pub fn count_rows(check: impl Fn(&Row) -> bool) -> usize {
    let folder = Path::new(env!("CARGO_MANIFEST_DIR")).join("../../crates/stream_tables/data");
    let mut count = 0;
    for table in fs::read_dir(folder).unwrap() {
        let text = fs::read_to_string(table.unwrap().path()).unwrap();
        for block in text.split("\n\n") {
            let row = Row(block
                .lines()
                .filter(|line| !line.starts_with('#'))
                .collect());
            count += usize::from(check(&row));
        }
    }
    count
}
