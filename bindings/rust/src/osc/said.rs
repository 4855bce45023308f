// SPDX-License-Identifier: MIT
//! The kind and the fields of a command, as `escape_stream_write_osc` takes them.
use super::{
    ChangeColorPair, ColorOrQuery, FinalTermClick, FinalTermPromptKind, FinalTermSemanticPrompt,
    Hyperlink, ITermDimension, ITermFileData, ITermProprietary, ITermUnicodeVersionOp,
    OperatingSystemCommand, Progress, Selection,
};
use crate::ffi;
use crate::fields::{VALUE_NUMBER, VALUE_SIZE, VALUE_TEXT, kind, name};
use alloc::string::String;
use alloc::vec::Vec;

/// Rows of fields, and their texts one after another. Each call appends a field.
#[derive(Default)]
pub struct Said {
    pub rows: Vec<ffi::Field>,
    pub texts: Vec<u8>,
}

impl Said {
    fn number(&mut self, name: u32, number: impl Into<i64>) -> &mut Said {
        self.rows.push(ffi::Field {
            name,
            kind: VALUE_NUMBER,
            number: number.into(),
            ..ffi::NO_FIELD
        });
        self
    }

    fn size(&mut self, name: u32, length: usize) {
        self.rows.push(ffi::Field {
            name,
            kind: VALUE_SIZE,
            length,
            ..ffi::NO_FIELD
        });
    }

    fn bytes(&mut self, name: u32, bytes: &[u8]) -> &mut Said {
        self.rows.push(ffi::Field {
            name,
            kind: VALUE_TEXT,
            offset: self.texts.len(),
            length: bytes.len(),
            ..ffi::NO_FIELD
        });
        self.texts.extend_from_slice(bytes);
        self
    }

    fn text(&mut self, name: u32, text: &str) -> &mut Said {
        self.bytes(name, text.as_bytes())
    }

    fn optional_text(&mut self, name: u32, text: Option<&String>) -> &mut Said {
        if let Some(text) = text {
            self.text(name, text);
        }
        self
    }

    /// The fields of a command. Returns its kind.
    pub fn command(&mut self, command: &OperatingSystemCommand) -> u32 {
        use OperatingSystemCommand as Command;
        match command {
            Command::SetIconNameAndWindowTitle(text) => {
                self.title(kind::SET_ICON_NAME_AND_WINDOW_TITLE, text)
            }
            Command::SetWindowTitle(text) => self.title(kind::SET_WINDOW_TITLE, text),
            Command::SetWindowTitleSun(text) => self.title(kind::SET_WINDOW_TITLE_SUN, text),
            Command::SetIconName(text) => self.title(kind::SET_ICON_NAME, text),
            Command::SetIconNameSun(text) => self.title(kind::SET_ICON_NAME_SUN, text),
            Command::SystemNotification(text) => self.title(kind::SYSTEM_NOTIFICATION, text),
            Command::CurrentWorkingDirectory(path) => {
                self.text(name::DIRECTORY, path);
                kind::CURRENT_WORKING_DIRECTORY
            }
            Command::SetHyperlink(link) => self.link(link.as_ref()),
            Command::ClearSelection(selection) => self.selection(kind::CLEAR_SELECTION, *selection),
            Command::QuerySelection(selection) => self.selection(kind::QUERY_SELECTION, *selection),
            Command::SetSelection(selection, text) => {
                self.selection(kind::SET_SELECTION, *selection);
                self.title(kind::SET_SELECTION, text)
            }
            Command::ITermProprietary(command) => self.iterm(command),
            Command::FinalTermSemanticPrompt(prompt) => self.prompt(prompt),
            Command::ChangeColorNumber(pairs) => {
                pairs.iter().for_each(|pair| self.pair(*pair));
                kind::CHANGE_COLOR_NUMBER
            }
            Command::ChangeDynamicColors(number, colors) => {
                self.number(name::DYNAMIC_COLOR, *number as u8);
                colors.iter().for_each(|color| self.color(*color));
                kind::CHANGE_DYNAMIC_COLORS
            }
            Command::ResetDynamicColor(number) => {
                self.number(name::DYNAMIC_COLOR, *number as u8);
                kind::RESET_DYNAMIC_COLOR
            }
            Command::ResetColors(indices) => {
                for index in indices {
                    self.number(name::PALETTE_INDEX, *index);
                }
                kind::RESET_COLORS
            }
            Command::RxvtExtension(parts) => self.parts(kind::RXVT_EXTENSION, parts),
            Command::Unspecified(parts) => self.parts(kind::UNSPECIFIED, parts),
            Command::ConEmuProgress(progress) => self.progress(*progress),
        }
    }

    // One text, of a command of this kind.
    fn title(&mut self, of: u32, text: &str) -> u32 {
        self.text(name::TEXT, text);
        of
    }

    fn selection(&mut self, of: u32, selection: Selection) -> u32 {
        self.number(name::SELECTION, selection.bits());
        of
    }

    fn parts(&mut self, of: u32, parts: &[impl AsRef<[u8]>]) -> u32 {
        for part in parts {
            self.bytes(name::PART, part.as_ref());
        }
        of
    }

    fn link(&mut self, link: Option<&Hyperlink>) -> u32 {
        if let Some(link) = link {
            self.text(name::URI, &link.uri)
                .number(name::IMPLICIT, link.implicit);
            for (key, value) in &link.params {
                self.text(name::KEY, key).text(name::VALUE, value);
            }
        }
        kind::SET_HYPERLINK
    }

    fn pair(&mut self, pair: ChangeColorPair) {
        self.number(name::PALETTE_INDEX, pair.palette_index)
            .color(pair.color);
    }

    fn color(&mut self, color: ColorOrQuery) {
        match color {
            ColorOrQuery::Color(color) => self
                .number(name::RED, color.red)
                .number(name::GREEN, color.green)
                .number(name::BLUE, color.blue),
            ColorOrQuery::Query => self.number(name::QUERY, 1),
        };
    }

    fn progress(&mut self, progress: Progress) -> u32 {
        match progress {
            Progress::None => self.number(name::PROGRESS_STATE, 0),
            Progress::SetPercentage(percent) => self
                .number(name::PROGRESS_STATE, 1)
                .number(name::PERCENT, percent),
            Progress::SetError(percent) => self
                .number(name::PROGRESS_STATE, 2)
                .number(name::PERCENT, percent),
            Progress::SetIndeterminate => self.number(name::PROGRESS_STATE, 3),
            Progress::Paused => self.number(name::PROGRESS_STATE, 4),
        };
        kind::CONEMU_PROGRESS
    }

    fn prompt(&mut self, prompt: &FinalTermSemanticPrompt) -> u32 {
        use FinalTermSemanticPrompt as Prompt;
        match prompt {
            Prompt::FreshLine => kind::PROMPT_FRESH_LINE,
            Prompt::FreshLineAndStartPrompt { aid, cl } => {
                self.optional_text(name::APPLICATION, aid.as_ref())
                    .click(*cl);
                kind::PROMPT_FRESH_LINE_AND_START_PROMPT
            }
            Prompt::MarkEndOfCommandWithFreshLine { aid, cl } => {
                self.optional_text(name::APPLICATION, aid.as_ref())
                    .click(*cl);
                kind::PROMPT_END_OF_COMMAND_WITH_FRESH_LINE
            }
            Prompt::StartPrompt(of) => {
                self.number(name::PROMPT_KIND, prompt_number(*of));
                kind::PROMPT_START_PROMPT
            }
            Prompt::MarkEndOfPromptAndStartOfInputUntilNextMarker => {
                kind::PROMPT_START_OF_INPUT_UNTIL_NEXT_MARKER
            }
            Prompt::MarkEndOfPromptAndStartOfInputUntilEndOfLine => {
                kind::PROMPT_START_OF_INPUT_UNTIL_END_OF_LINE
            }
            Prompt::MarkEndOfInputAndStartOfOutput { aid } => {
                self.optional_text(name::APPLICATION, aid.as_ref());
                kind::PROMPT_START_OF_OUTPUT
            }
            Prompt::CommandStatus { status, aid } => {
                self.number(name::STATUS, *status)
                    .optional_text(name::APPLICATION, aid.as_ref());
                kind::PROMPT_COMMAND_STATUS
            }
        }
    }

    fn click(&mut self, click: Option<FinalTermClick>) {
        let number: u8 = match click {
            None => return,
            Some(FinalTermClick::Line) => 0,
            Some(FinalTermClick::MultipleLine) => 1,
            Some(FinalTermClick::ConservativeVertical) => 2,
            Some(FinalTermClick::SmartVertical) => 3,
        };
        self.number(name::CLICK, number);
    }

    fn iterm(&mut self, command: &ITermProprietary) -> u32 {
        use ITermProprietary as Command;
        match command {
            Command::SetMark => return kind::ITERM_SET_MARK,
            Command::StealFocus => return kind::ITERM_STEAL_FOCUS,
            Command::ClearScrollback => return kind::ITERM_CLEAR_SCROLLBACK,
            Command::EndCopy => return kind::ITERM_END_COPY,
            Command::RequestCellSize => return kind::ITERM_REQUEST_CELL_SIZE,
            Command::CurrentDir(path) => self.text(name::DIRECTORY, path),
            Command::SetProfile(text)
            | Command::CopyToClipboard(text)
            | Command::ReportVariable(text) => self.text(name::NAME, text),
            Command::Copy(text) | Command::SetBadgeFormat(text) => self.text(name::TEXT, text),
            Command::HighlightCursorLine(on) => self.number(name::HIGHLIGHTED, *on),
            Command::SetUserVar { name, value } => {
                self.text(name::NAME, name).text(name::VALUE, value)
            }
            Command::ReportCellSize {
                height_pixels,
                width_pixels,
                scale,
            } => {
                self.number(name::CELL_HEIGHT, *height_pixels)
                    .number(name::CELL_WIDTH, *width_pixels);
                match scale {
                    Some(scale) => self.number(name::SCALE, *scale),
                    None => self,
                }
            }
            Command::File(file) => return self.file(file),
            Command::UnicodeVersion(version) => return self.version(version),
        };
        iterm_kind(command)
    }

    fn version(&mut self, version: &ITermUnicodeVersionOp) -> u32 {
        match version {
            ITermUnicodeVersionOp::Set(number) => {
                self.number(name::VERSION, *number);
                kind::ITERM_SET_UNICODE_VERSION
            }
            ITermUnicodeVersionOp::Push(label) => {
                self.optional_text(name::LABEL, label.as_ref());
                kind::ITERM_PUSH_UNICODE_VERSION
            }
            ITermUnicodeVersionOp::Pop(label) => {
                self.optional_text(name::LABEL, label.as_ref());
                kind::ITERM_POP_UNICODE_VERSION
            }
        }
    }

    fn file(&mut self, file: &ITermFileData) -> u32 {
        self.optional_text(name::NAME, file.name.as_ref());
        if let Some(size) = file.size {
            self.size(name::SIZE, size);
        }
        self.dimension(name::WIDTH_CELLS, file.width);
        self.dimension(name::HEIGHT_CELLS, file.height);
        self.number(name::PRESERVE_ASPECT_RATIO, file.preserve_aspect_ratio)
            .number(name::INLINE, file.inline)
            .number(name::DO_NOT_MOVE_CURSOR, file.do_not_move_cursor)
            .bytes(name::CONTENT, &file.data);
        kind::ITERM_FILE
    }

    // A dimension, whose names in pixels and as a percentage come after the one in cells.
    fn dimension(&mut self, cells: u32, dimension: ITermDimension) {
        match dimension {
            ITermDimension::Automatic => self,
            ITermDimension::Cells(number) => self.number(cells, number),
            ITermDimension::Pixels(number) => self.number(cells + 1, number),
            ITermDimension::Percent(number) => self.number(cells + 2, number),
        };
    }
}

fn prompt_number(of: FinalTermPromptKind) -> u8 {
    match of {
        FinalTermPromptKind::Initial => 0,
        FinalTermPromptKind::RightSide => 1,
        FinalTermPromptKind::Continuation => 2,
        FinalTermPromptKind::Secondary => 3,
    }
}

// The kind of a command of iTerm2 that has fields, but no file and no version.
fn iterm_kind(command: &ITermProprietary) -> u32 {
    match command {
        ITermProprietary::CurrentDir(_) => kind::ITERM_CURRENT_DIR,
        ITermProprietary::SetProfile(_) => kind::ITERM_SET_PROFILE,
        ITermProprietary::CopyToClipboard(_) => kind::ITERM_COPY_TO_CLIPBOARD,
        ITermProprietary::ReportVariable(_) => kind::ITERM_REPORT_VARIABLE,
        ITermProprietary::Copy(_) => kind::ITERM_COPY,
        ITermProprietary::SetBadgeFormat(_) => kind::ITERM_SET_BADGE_FORMAT,
        ITermProprietary::HighlightCursorLine(_) => kind::ITERM_HIGHLIGHT_CURSOR_LINE,
        ITermProprietary::SetUserVar { .. } => kind::ITERM_SET_USER_VAR,
        ITermProprietary::ReportCellSize { .. } => kind::ITERM_REPORT_CELL_SIZE,
        _ => kind::UNSPECIFIED,
    }
}
