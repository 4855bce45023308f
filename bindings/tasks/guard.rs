// SPDX-License-Identifier: MIT
//! A guard of the clipboard: it passes on what a session writes, as it comes, but no command that
//! sets or clears the clipboard (OSC 52), however it is spelled or cut, and says what each was to
//! set. `Group::Other` beside `Group::Clipboard` also keeps back questions, as for its text.
use escape_stream::action::Parser;
use escape_stream::borrowed::{Action, OperatingSystemCommand};
use escape_stream::{Group, Policy, SanitizerOptions, SanitizerWriter};
use std::io::{self, Read, Write};

fn tell(action: Action<'_>) {
    if let Action::OperatingSystemCommand(OperatingSystemCommand::SetSelection(_, text)) = action {
        eprintln!("kept off the clipboard: {text:?}");
    }
}

fn main() -> io::Result<()> {
    let options = SanitizerOptions::new(Policy::All).deny(Group::Clipboard);
    let mut output = SanitizerWriter::new(io::stdout().lock(), options.account(false))?;
    let mut parser = Parser::new();
    let mut input = io::stdin().lock();
    let mut chunk = [0; 4096];
    loop {
        let length = input.read(&mut chunk)?;
        if length == 0 {
            return output.finish();
        }
        parser.parse_borrowed(&chunk[..length], tell);
        output.write_all(&chunk[..length])?;
        output.flush()?;
    }
}
