// SPDX-License-Identifier: MIT
//! A pane of a multiplexer: a program writes to a terminal of 20 columns and 3 rows, which is shown
//! at row 2 and column 5 of the real one. After each chunk the rows that are changed are drawn, the
//! cursor is put where the program has it, and its questions are answered.
use escape_stream::Error;
use escape_stream::screen::{Cell, Color, Parser, Request};
use std::fmt::Write as _;
use std::io::{self, Read, Write};

const ROWS: u16 = 3;
const COLUMNS: u16 = 20;
const TOP: u16 = 2;
const LEFT: u16 = 5;

/// A program's screen, and its rows as they were drawn last.
struct Pane {
    parser: Parser,
    drawn: Vec<Vec<Cell>>,
}

impl Pane {
    fn new() -> Result<Pane, Error> {
        let parser = Parser::new(ROWS, COLUMNS, 0)?;
        let drawn = Vec::new();
        Ok(Pane { parser, drawn })
    }

    /// Takes what the program wrote, and returns what the real terminal has to get.
    fn take(&mut self, chunk: &[u8]) -> Result<String, Error> {
        self.parser.process(chunk)?;
        let screen = self.parser.screen();
        let mut out = String::new();
        self.drawn.resize(ROWS.into(), Vec::new());
        for ((row, cells), drawn) in (TOP..).zip(screen.cells()).zip(&mut self.drawn) {
            if cells != drawn {
                let _ = write!(out, "\x1b[{row};{LEFT}H");
                draw(&mut out, cells);
                *drawn = cells.to_vec();
            }
        }
        let (row, column) = screen.cursor_position();
        let _ = write!(out, "\x1b[{};{}H", TOP + row, LEFT + column);
        Ok(out)
    }

    /// The answers that the program has to get for its questions in that chunk.
    fn answers(&self) -> String {
        let (row, column) = self.parser.screen().cursor_position();
        let answer = |request: &Request| match request {
            Request::PrimaryAttributes => "\x1b[?62;22c".to_string(),
            Request::Status => "\x1b[0n".to_string(),
            Request::CursorPosition => format!("\x1b[{};{}R", row + 1, column + 1),
            _ => String::new(),
        };
        self.parser.requests().iter().map(answer).collect()
    }
}

/// Writes cells with their looks.
fn draw(out: &mut String, cells: &[Cell]) {
    let mut look = String::new();
    for cell in cells.iter().filter(|it| !it.is_wide_continuation()) {
        let wanted = look_of(cell);
        if wanted != look {
            let _ = write!(out, "\x1b[0{wanted}m");
            look = wanted;
        }
        out.push_str(if cell.has_contents() {
            cell.contents()
        } else {
            " "
        });
    }
    if !look.is_empty() {
        out.push_str("\x1b[0m");
    }
}

/// The parameters of SGR that say how a cell looks, after 0.
fn look_of(cell: &Cell) -> String {
    let mut look = String::new();
    let flags = [
        (cell.bold(), ";1"),
        (cell.dim(), ";2"),
        (cell.italic(), ";3"),
        (cell.underline(), ";4"),
        (cell.inverse(), ";7"),
        (cell.strikethrough(), ";9"),
    ];
    look.extend(flags.iter().filter(|it| it.0).map(|it| it.1));
    for (plane, color) in [(3, cell.fgcolor()), (4, cell.bgcolor())] {
        let _ = match color {
            Color::Default => Ok(()),
            Color::Idx(index) => write!(look, ";{plane}8;5;{index}"),
            Color::Rgb(red, green, blue) => write!(look, ";{plane}8;2;{red};{green};{blue}"),
        };
    }
    look
}

fn main() -> io::Result<()> {
    let mut pane = Pane::new()?;
    let mut input = io::stdin().lock();
    let mut output = io::stdout().lock();
    let mut chunk = [0; 4096];
    loop {
        let length = input.read(&mut chunk)?;
        if length == 0 {
            return Ok(());
        }
        output.write_all(pane.take(&chunk[..length])?.as_bytes())?;
        output.flush()?;
        // A multiplexer writes these to the program's terminal.
        eprint!("{}", pane.answers().escape_default());
    }
}
