// SPDX-License-Identifier: MIT
//! How an entry of a control sequence is serialized.
use serde::{Deserialize, Serialize};

#[derive(Serialize, Deserialize)]
pub enum Entry {
    Number(i64),
    Byte(u8),
}

impl From<Entry> for crate::Entry {
    fn from(entry: Entry) -> crate::Entry {
        match entry {
            Entry::Number(number) => crate::Entry::of_number(number),
            Entry::Byte(byte) => crate::Entry::of_byte(byte),
        }
    }
}

impl From<crate::Entry> for Entry {
    fn from(entry: crate::Entry) -> Entry {
        match entry.byte() {
            Some(byte) => Entry::Byte(byte),
            None => Entry::Number(entry.number().unwrap_or(0)),
        }
    }
}
