// SPDX-License-Identifier: MIT
//! Records a session: each line of the recording is what came up to a place where the stream may be
//! cut, with what it does. Joined, the lines are the stream.
use escape_stream::action::Parser;
use escape_stream::borrowed::{Action, OperatingSystemCommand};
use std::io::{self, Read, Write};

fn main() -> io::Result<()> {
    let mut stream = Vec::new();
    io::stdin().lock().read_to_end(&mut stream)?;
    let mut output = io::stdout().lock();
    let mut parser = Parser::new();
    let (mut pending, mut notes, mut joined) = (Vec::new(), Vec::new(), Vec::new());
    // A program's writes come in chunks of any length.
    for chunk in stream.chunks(5) {
        pending.extend_from_slice(chunk);
        parser.parse_borrowed(chunk, |action| match action {
            Action::OperatingSystemCommand(OperatingSystemCommand::SetWindowTitle(title)) => {
                notes.push(format!("title {title:?}"));
            }
            Action::CSI(sequence) => {
                let name = sequence.function().map_or("?", |it| it.name());
                notes.push(name.into());
            }
            _ => {}
        });
        if parser.is_ground() {
            writeln!(output, "{} [{}]", pending.escape_ascii(), notes.join(", "))?;
            joined.append(&mut pending);
            notes.clear();
        }
    }
    joined.append(&mut pending);
    assert_eq!(joined, stream);
    Ok(())
}
