// SPDX-License-Identifier: MIT
//! The actions of the tables of streams are the same after they were written as JSON and read.
#[path = "../../rust/tests/rows/mod.rs"]
mod rows;

use escape_stream::action::{Action, Parser};
use escape_stream::{ControlFunction, Policy};
use rows::count_rows;

#[test]
fn actions_are_read_back() {
    let count = count_rows(|row| {
        let Some(stream) = row.bytes("stream").filter(|it| it.len() < 100_000) else {
            return false;
        };
        let actions = Parser::with_limits(1 << 20, 1 << 20).parse_as_vec(&stream);
        let text = serde_json::to_string(&actions).unwrap();
        let read: Vec<Action> = serde_json::from_str(&text).unwrap();
        assert_eq!(read, actions, "{}", row.name());
        true
    });
    assert!(count > 450, "{count} rows");
}

#[test]
fn what_is_written() {
    let actions = Parser::new().parse_as_vec(b"a\x1b[1;2m\x1b]2;t\x07");
    let wanted = r#"[{"Print":"a"},{"CSI":{"params":[{"Number":1},{"Byte":59},{"Number":2}],"parameters_truncated":false,"control":109}},{"OperatingSystemCommand":{"SetWindowTitle":"t"}}]"#;
    assert_eq!(serde_json::to_string(&actions).unwrap(), wanted);
    assert_eq!(
        serde_json::to_string(&ControlFunction::CUU).unwrap(),
        "\"CUU\""
    );
    assert_eq!(
        serde_json::from_str::<Policy>("\"Color\"").unwrap(),
        Policy::Color
    );
    assert!(serde_json::from_str::<Action>(r#"{"CSI":{"params":[{"Number":""}]}}"#).is_err());
}

// The crate `vte` over it is in the same program.
#[test]
fn beside_vte() {
    #[derive(Default)]
    struct Text(String);

    impl vte::Perform for Text {
        fn print(&mut self, c: char) {
            self.0.push(c);
        }
    }

    let mut text = Text::default();
    vte::Parser::new().advance(&mut text, b"a\x1b[1mb");
    assert_eq!(text.0, "ab");
}
