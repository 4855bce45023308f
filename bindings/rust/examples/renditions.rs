//! Writes of standard input text, line ends, tabs and renditions, and nothing else: no links.
use escape_stream::{Entry, Event, Parser};
use std::io::{self, Read, Write};

// A rendition has the final byte `m`, and of bytes only `;` and `:` beside its numbers. It is
// spelled anew, from its numbers.
fn rendition(entries: &[Entry]) -> Option<String> {
    let mut text = String::from("\x1b[");
    for entry in entries {
        match (entry.number(), entry.byte()) {
            (Some(number), _) => text += &number.to_string(),
            (_, Some(byte @ (b';' | b':'))) => text.push(byte.into()),
            _ => return None,
        }
    }
    Some(text + "m")
}

// The text of what passes of an event.
fn passing(event: Event<'_>) -> Option<String> {
    match event {
        Event::Text(run) => Some(run.replace('\x7f', "")),
        Event::Character(c) if c != '\x7f' => Some(c.into()),
        Event::Control(byte @ (b'\n' | b'\r' | b'\t')) => Some(char::from(byte).into()),
        Event::Csi {
            entries,
            has_more: false,
            byte: b'm',
        } => rendition(entries),
        _ => None,
    }
}

fn main() -> io::Result<()> {
    let (mut input, mut output) = (io::stdin().lock(), io::stdout().lock());
    let mut parser = Parser::new();
    let mut bytes = [0; 4096];
    loop {
        let length = input.read(&mut bytes)?;
        if length == 0 {
            return output.flush();
        }
        let mut text = String::new();
        let act = |event: Event<'_>| text += &passing(event).unwrap_or_default();
        parser
            .advance(&bytes[..length], act)
            .map_err(|error| io::Error::new(io::ErrorKind::Other, error))?;
        output.write_all(text.as_bytes())?;
    }
}
