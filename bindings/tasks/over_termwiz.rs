// SPDX-License-Identifier: MIT
//! A program over the crate termwiz, but for the first line: it prints the text of a stream with
//! marks for what is bold, its title, and where the cursor goes.
use escape_stream::termwiz;

use std::io::{self, Read};
use termwiz::cell::Intensity;
use termwiz::color::ColorSpec;
use termwiz::escape::csi::{CSI, Cursor, DecPrivateMode, DecPrivateModeCode, Mode, Sgr};
use termwiz::escape::parser::Parser;
use termwiz::escape::{Action, ControlCode, Esc, EscCode, OperatingSystemCommand};

fn show(action: Action) {
    match action {
        Action::Print(c) => print!("{c}"),
        Action::PrintString(text) => print!("{text}"),
        Action::Control(ControlCode::LineFeed) => println!(),
        Action::OperatingSystemCommand(command) => {
            if let OperatingSystemCommand::SetWindowTitle(title) = *command {
                print!("<title {title}>");
            }
        }
        Action::CSI(CSI::Sgr(Sgr::Intensity(intensity))) => {
            print!(
                "{}",
                if intensity == Intensity::Bold {
                    "<b>"
                } else {
                    "</b>"
                }
            );
        }
        Action::CSI(CSI::Sgr(Sgr::Foreground(ColorSpec::PaletteIndex(index)))) => {
            print!("<colour {index}>");
        }
        Action::CSI(CSI::Cursor(Cursor::Position { line, col })) => {
            print!("<to {},{}>", line.as_one_based(), col.as_one_based());
        }
        Action::CSI(CSI::Mode(Mode::SetDecPrivateMode(DecPrivateMode::Code(
            DecPrivateModeCode::BracketedPaste,
        )))) => print!("<paste>"),
        Action::Esc(Esc::Code(EscCode::FullReset)) => print!("<reset>"),
        _ => {}
    }
}

fn main() {
    let mut bytes = Vec::new();
    io::stdin()
        .lock()
        .read_to_end(&mut bytes)
        .expect("a stream");
    let mut parser = Parser::new();
    for chunk in bytes.chunks(7) {
        parser.parse(chunk, show);
    }
    println!();
}
