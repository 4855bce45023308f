// SPDX-License-Identifier: MIT
//! A program that is written for the crate `termwiz`, but for the first line.
use escape_stream::termwiz;

use termwiz::cell::{Intensity, Underline};
use termwiz::color::{AnsiColor, ColorSpec};
use termwiz::escape::apc::{KittyImageDelete, KittyImageVerbosity};
use termwiz::escape::csi::{
    Cursor, DecPrivateMode, DecPrivateModeCode, Edit, EraseInDisplay, Mode, Sgr,
};
use termwiz::escape::osc::{FinalTermSemanticPrompt, Selection};
use termwiz::escape::parser::Parser;
use termwiz::escape::{
    Action, CSI, ControlCode, DeviceControlMode, Esc, EscCode, KittyImage, OneBased,
    OperatingSystemCommand, SixelData,
};
use termwiz::hyperlink::Hyperlink;

// The text of a stream, its links in angle brackets.
fn text(parser: &mut Parser, bytes: &[u8]) -> String {
    let mut text = String::new();
    parser.parse(bytes, |action| match action {
        Action::Print(c) => text.push(c),
        Action::PrintString(run) => text.push_str(&run),
        Action::Control(ControlCode::LineFeed) => text.push('\n'),
        Action::OperatingSystemCommand(command) => match *command {
            OperatingSystemCommand::SetHyperlink(Some(link)) => {
                text.push_str(&format!("<{}>", link.uri()));
            }
            OperatingSystemCommand::SetWindowTitle(title) => text.push_str(&title),
            _ => {}
        },
        _ => {}
    });
    text
}

#[test]
fn a_closure_takes_the_actions() {
    let mut parser = Parser::new();
    let stream = b"a\x1b]8;;http://e.com\x1b\\b\x1b]8;;\x1b\\\n\x1b]2;t\x07\x1b[1mc";
    assert_eq!(text(&mut parser, stream), "a<http://e.com>b\ntc");
}

#[test]
fn the_first_action() {
    let mut parser = Parser::default();
    assert_eq!(parser.parse_first(b"hello"), Some((Action::Print('h'), 1)));
    let (actions, count) = parser
        .parse_first_as_vec(b"\x1b_Ga=d,d=a,q=2\x1b\\x")
        .unwrap();
    assert_eq!(count, 16);
    let image = KittyImage::Delete {
        what: KittyImageDelete::All { delete: false },
        verbosity: KittyImageVerbosity::Quiet,
    };
    assert_eq!(actions[0], Action::KittyImage(Box::new(image)));
    let end = Esc::Code(EscCode::StringTerminator);
    assert_eq!(actions[1], Action::Esc(end));
    let sequence = parser.parse_first(b"\x1b[1;3mx");
    let bold = CSI::Sgr(Sgr::Intensity(Intensity::Bold));
    assert_eq!(sequence, Some((Action::CSI(bold), 6)));
}

#[test]
fn values_are_written() {
    let link = Hyperlink::new_with_id("http://e.com/", "1");
    assert_eq!(link.params()["id"], "1");
    let command = OperatingSystemCommand::SetHyperlink(Some(link));
    assert_eq!(command.to_string(), "\x1b]8;id=1;http://e.com/\x1b\\");
    let command = OperatingSystemCommand::QuerySelection(Selection::CLIPBOARD | Selection::CUT9);
    assert_eq!(command.to_string(), "\x1b]52;c9;?\x1b\\");
    let prompt = FinalTermSemanticPrompt::FreshLine;
    let command = OperatingSystemCommand::FinalTermSemanticPrompt(prompt);
    assert_eq!(
        Action::OperatingSystemCommand(Box::new(command)).to_string(),
        "\x1b]133;L\x1b\\"
    );
}

#[test]
fn strings_of_devices() {
    let actions = Parser::new().parse_as_vec(b"\x1bP1$qm\x1b\\\x1bPq!3~\x1b\\\x1bP+q544e\x1b\\");
    match &actions[..] {
        [
            Action::DeviceControl(DeviceControlMode::ShortDeviceControl(short)),
            Action::Esc(_),
            Action::Sixel(sixel),
            Action::Esc(_),
            Action::XtGetTcap(names),
            Action::Esc(_),
        ] => {
            assert_eq!((short.params[0], &short.data[..]), (1, &b"m"[..]));
            assert_eq!((sixel.dimensions(), sixel.data.len()), ((3, 6), 1));
            assert!(matches!(
                sixel.data[0],
                SixelData::Repeat {
                    repeat_count: 3,
                    ..
                }
            ));
            assert_eq!(names, &["TN"]);
        }
        other => panic!("{other:?}"),
    }
}

// A screen of a line, as a terminal over termwiz keeps one.
#[derive(Default)]
struct Screen {
    cells: Vec<(char, Option<ColorSpec>)>,
    column: usize,
    color: Option<ColorSpec>,
    is_underlined: bool,
    is_cursor_hidden: bool,
}

impl Screen {
    fn act(&mut self, action: Action) {
        match action {
            Action::Print(c) => {
                self.cells
                    .resize(self.cells.len().max(self.column + 1), (' ', None));
                self.cells[self.column] = (c, self.color);
                self.column += 1;
            }
            Action::CSI(CSI::Cursor(cursor)) => match cursor {
                Cursor::Position { col, .. } => self.column = col.as_zero_based() as usize,
                Cursor::Left(count) => self.column = self.column.saturating_sub(count as usize),
                _ => {}
            },
            Action::CSI(CSI::Sgr(sgr)) => match sgr {
                Sgr::Reset => self.color = None,
                Sgr::Foreground(color) => self.color = Some(color),
                Sgr::Underline(line) => self.is_underlined = line != Underline::None,
                _ => {}
            },
            Action::CSI(CSI::Edit(Edit::EraseInDisplay(EraseInDisplay::EraseDisplay))) => {
                self.cells.clear();
            }
            Action::CSI(CSI::Mode(Mode::ResetDecPrivateMode(DecPrivateMode::Code(
                DecPrivateModeCode::ShowCursor,
            )))) => self.is_cursor_hidden = true,
            Action::Esc(Esc::Code(EscCode::FullReset)) => *self = Screen::default(),
            _ => {}
        }
    }
}

#[test]
fn a_screen() {
    let mut screen = Screen::default();
    let stream = b"x\x1bcold\x1b[2J\x1b[1;3H\x1b[31;4mred\x1b[2D\x1b[mE\x1b[?25l";
    Parser::new().parse(stream, |action| screen.act(action));
    let text: String = screen.cells.iter().map(|cell| cell.0).collect();
    assert_eq!(text, "  rEd");
    let red = ColorSpec::from(AnsiColor::Maroon);
    assert_eq!(screen.cells[2], ('r', Some(red)));
    assert_eq!(screen.cells[3], ('E', None));
    assert!(screen.is_underlined && screen.is_cursor_hidden);
}

#[test]
fn actions_are_joined() {
    let mut joined = Vec::new();
    for action in Parser::new().parse_as_vec(b"ab\x1b[2;5Hc") {
        action.append_to(&mut joined);
    }
    let (line, col) = (OneBased::new(2), OneBased::new(5));
    let place = CSI::Cursor(Cursor::Position { line, col });
    let wanted = [
        Action::PrintString("ab".into()),
        Action::CSI(place),
        Action::Print('c'),
    ];
    assert_eq!(joined, wanted);
}
