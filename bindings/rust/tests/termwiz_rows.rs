// SPDX-License-Identifier: MIT
//! The values under termwiz's names beside the table of typed values, which the proved readers of
//! `crates/typed_functions` are tested with too.
use escape_stream::termwiz;

use termwiz::cell::{Intensity, Underline};
use termwiz::color::ColorSpec;
use termwiz::escape::csi::{
    CSI, Cursor, Device, Edit, Font, Keyboard, Mode, MouseReport, Sgr, Window,
};
use termwiz::escape::{Action, parser::Parser};

// The rows of control sequences: each with what it asks for.
fn rows() -> Vec<(Vec<u8>, String)> {
    let path = concat!(
        env!("CARGO_MANIFEST_DIR"),
        "/../../crates/codec_tables/data/typed.txt"
    );
    let text = std::fs::read_to_string(path).expect("the table is there");
    let row = |line: &str| {
        let (sequence, wanted) = line.strip_prefix("csi | ")?.split_once(" | ")?;
        Some(([b"\x1b[", sequence.as_bytes()].concat(), wanted.into()))
    };
    text.lines().filter_map(row).collect()
}

fn values(bytes: &[u8]) -> Vec<CSI> {
    let value = |action| match action {
        Action::CSI(it) => it,
        other => panic!("{other:?}"),
    };
    let actions = Parser::new().parse_as_vec(bytes);
    actions.into_iter().map(value).collect()
}

// A line, a column or none as the table has it.
fn last(number: u32) -> String {
    match number {
        u32::MAX => "None".into(),
        number => format!("Some({number})"),
    }
}

fn cursor(it: Cursor) -> String {
    match it {
        Cursor::SetTopAndBottomMargins { top, bottom } => format!(
            "SetTopAndBottomMargins {{ top: {top}, bottom: {} }}",
            last(bottom.as_one_based())
        ),
        Cursor::SetLeftAndRightMargins { left, right } => format!(
            "SetLeftAndRightMargins {{ left: {left}, right: {} }}",
            last(right.as_one_based())
        ),
        // termwiz has three names otherwise.
        _ => format!("{it:?}")
            .replace("LineTabstop", "LineTabStop")
            .replace("AllCharacterTabStopsAt", "CharacterTabStopsAt")
            .replace(
                "Clear(ClearLineTabStopAtActiveLine",
                "Clear(ClearLineTabStopAtActivePosition",
            ),
    }
}

fn window(it: Window) -> String {
    match it {
        Window::ResizeWindowPixels { width, height } => {
            format!("ResizeWindowPixels {{ height: {height:?}, width: {width:?} }}")
        }
        Window::ResizeWindowCells { width, height } => {
            format!("ResizeWindowCells {{ height: {height:?}, width: {width:?} }}")
        }
        Window::ReportCellSizePixelsResponse {
            width: Some(width),
            height: Some(height),
        } => format!("ReportCellSizePixelsResponse {{ height: {height}, width: {width} }}"),
        _ => format!("{it:?}"),
    }
}

// The words of the table for a value that is no rendition.
fn shown(value: &CSI) -> String {
    let text = match value {
        CSI::Cursor(it) => cursor(*it),
        CSI::Edit(it) => format!("{it:?}"),
        CSI::Device(it) => format!("{it:?}"),
        CSI::Window(it) => window(**it),
        CSI::Mouse(MouseReport::SGR1006 { x, y, .. }) => {
            let text = value.to_string();
            let (parts, last) = text.split_at(text.len() - 1);
            let button = parts["\x1b[<".len()..].split(';').next().unwrap();
            let name = if last == "M" { "Pressed" } else { "Released" };
            format!("{name} {{ button: {button}, col: {x}, line: {y} }}")
        }
        CSI::Keyboard(Keyboard::SetKittyState { flags, mode }) => {
            format!(
                "SetKittyState {{ flags: {}, change: {mode:?} }}",
                flags.bits()
            )
        }
        CSI::Keyboard(Keyboard::PushKittyState { flags, .. }) => {
            format!("PushKittyState({})", flags.bits())
        }
        CSI::Keyboard(it) => format!("{it:?}"),
        _ => String::new(),
    };
    // A number that counts from 1 shows as a struct.
    let mut parts = text.split("OneBased { value: ");
    let first = parts.next().unwrap_or_default().to_string();
    parts.fold(first, |text, part| text + &part.replacen(" }", "", 1))
}

const COLORS: [&str; 8] = [
    "Black", "Red", "Green", "Yellow", "Blue", "Magenta", "Cyan", "White",
];

fn color(name: &str, it: ColorSpec, is_of_palette: bool) -> String {
    match it {
        ColorSpec::Default => format!("{name}(Default)"),
        ColorSpec::PaletteIndex(index @ 0..=15) if is_of_palette => {
            let bright = if index < 8 { "" } else { "Bright" };
            format!("Ansi{name}({bright}{})", COLORS[usize::from(index % 8)])
        }
        ColorSpec::PaletteIndex(index) => format!("{name}(PaletteIndex({index}))"),
        ColorSpec::TrueColor(it) => {
            let (red, green, blue, _) = it.to_srgb_u8();
            format!("{name}(TrueColor(RgbColor {{ red: {red}, green: {green}, blue: {blue} }}))")
        }
    }
}

// The words of the table for a rendition: one of the palette by its number, or by that of the
// palette.
fn rendition(it: Sgr, wanted: &str) -> String {
    let is_of_palette = wanted.starts_with("Ansi");
    match it {
        Sgr::Foreground(it) => color("Foreground", it, is_of_palette),
        Sgr::Background(it) => color("Background", it, is_of_palette),
        Sgr::UnderlineColor(it) => color("UnderlineColor", it, false),
        Sgr::Font(Font::Alternate(font)) => format!("Font(Alternate{font})"),
        _ => format!("{it:?}"),
    }
}

// Renditions that the table has and termwiz has not.
const NOT_HERE: [&str; 5] = ["?", "Font(Fraktur)", "Proportional", "Frame", "Ideogram"];

// Compares renditions up to the first that is not known here: with it comes all that follows.
fn check_renditions(bytes: &[u8], wanted: &str) {
    let found = values(bytes);
    let mut found = found.iter();
    for item in wanted.split_terminator(';').map(str::trim) {
        // A spelling has `;` of its own.
        if !item.starts_with(|it: char| it.is_uppercase() || it == '?') {
            continue;
        }
        let value = found.next().expect("there is one more");
        if NOT_HERE.iter().any(|it| item.starts_with(it)) {
            assert!(matches!(value, CSI::Unspecified(_)), "{wanted}: {value:?}");
            return;
        }
        let CSI::Sgr(it) = value else {
            panic!("{wanted}: {value:?}");
        };
        let it = rendition(*it, item);
        assert!(item.starts_with(&it), "{wanted}: {it}");
    }
    assert_eq!(found.next(), None, "{wanted}");
}

// Compares a list of modes by their numbers.
fn check_modes(bytes: &[u8], wanted: &str) {
    let (name, list) = wanted.split_once(':').expect("there is a list");
    let mut found = values(bytes).into_iter();
    for number in list.split(';').map(str::trim).filter(|it| !it.is_empty()) {
        let value = found.next().expect("there is one more");
        if number.parse::<u16>().is_err() {
            assert!(matches!(value, CSI::Unspecified(_)), "{wanted}: {value:?}");
            continue;
        }
        let CSI::Mode(mode) = &value else {
            panic!("{wanted}: {value:?}");
        };
        assert!(format!("{mode:?}").starts_with(name), "{wanted}: {mode:?}");
        assert!(value.to_string().contains(number), "{wanted}: {value}");
    }
    assert_eq!(found.next(), None, "{wanted}");
}

// Values that the table has and termwiz has not, among them a count of 2^32.
fn is_here(wanted: &str) -> bool {
    if wanted.contains("4294967296") {
        return false;
    }
    let others = [
        "ScrollLeft",
        "ScrollRight",
        "InsertColumn",
        "DeleteColumn",
        "Selective",
        "ReportScreenSize",
        "SetLinesPerPage",
        "ReportMode",
        "ReportDecPrivateMode",
        "Clear:",
        "Control:",
    ];
    let asked = ["ReportScreenSizePixels ", "ReportScreenSizeCells "];
    asked.iter().any(|it| wanted.starts_with(it)) || !others.iter().any(|it| wanted.starts_with(it))
}

#[test]
fn values_are_those_of_the_table() {
    let (mut compared, mut without) = (0, 0);
    for (bytes, wanted) in rows() {
        let first = wanted.split(' ').next().unwrap_or_default();
        if first == "Sgr:" {
            check_renditions(&bytes, &wanted["Sgr:".len()..]);
        } else if ["Set", "Reset", "Save", "Restore"]
            .iter()
            .any(|it| first.starts_with(it))
            && first.ends_with("Mode:")
        {
            check_modes(&bytes, &wanted);
        } else if ["TooFew", "TooMany", "OutOfRange", "NoNumbers", "Unnamed"].contains(&first) {
            without += 1;
            let found = values(&bytes);
            let shown = bytes.escape_ascii();
            assert!(
                matches!(&found[..], [CSI::Unspecified(_)]),
                "{shown}: {found:?}"
            );
            continue;
        } else if first == "Untyped" || !is_here(&wanted) {
            continue;
        } else if let Some(number) = first
            .strip_prefix("Query")
            .filter(|it| it.contains("Mode("))
        {
            let found = values(&bytes);
            assert!(
                matches!(
                    found[..],
                    [CSI::Mode(Mode::QueryMode(_) | Mode::QueryDecPrivateMode(_))]
                ),
                "{number}"
            );
        } else {
            let found = values(&bytes);
            let [value] = &found[..] else {
                panic!("{wanted}: {found:?}");
            };
            let it = shown(value);
            let spelled = wanted.rsplit_once(" \\x1b").map(|it| it.0);
            assert_eq!(Some(&it[..]), spelled, "{value:?}");
        }
        compared += 1;
    }
    assert!(compared > 170 && without > 30, "{compared} {without}");
}

// A value is written so that it is read again.
#[test]
fn values_read_back() {
    for (bytes, wanted) in rows() {
        for value in values(&bytes) {
            let text = value.to_string();
            assert_eq!(values(text.as_bytes()), [value], "{wanted}: {text:?}");
        }
    }
}

#[test]
fn renditions_are_written() {
    let bold = CSI::Sgr(Sgr::Intensity(Intensity::Bold));
    assert_eq!(bold.to_string(), "\x1b[1m");
    let curly = CSI::Sgr(Sgr::Underline(Underline::Curly));
    assert_eq!(curly.to_string(), "\x1b[4:3m");
    let edit = CSI::Edit(Edit::Repeat(3));
    assert_eq!(edit.to_string(), "\x1b[3b");
    let reset = CSI::Device(Box::new(Device::SoftReset));
    assert_eq!(reset.to_string(), "\x1b[!p");
}
