# SPDX-License-Identifier: MIT
"""The values of operating system commands: their kind, and their parts as fields; and the
commands of such values."""

from dataclasses import dataclass
from enum import IntEnum

from escape_stream import _library
from escape_stream._fields import Fields, FieldName, Value, read, written


class CommandKind(IntEnum):
    """Which command it is. `escape_stream.h` says which fields each has."""

    UNSPECIFIED = 0
    SET_ICON_NAME_AND_WINDOW_TITLE = 1
    SET_WINDOW_TITLE = 2
    SET_WINDOW_TITLE_SUN = 3
    SET_ICON_NAME = 4
    SET_ICON_NAME_SUN = 5
    SET_HYPERLINK = 6
    CLEAR_SELECTION = 7
    QUERY_SELECTION = 8
    SET_SELECTION = 9
    SYSTEM_NOTIFICATION = 10
    CHANGE_COLOR_NUMBER = 11
    CHANGE_DYNAMIC_COLORS = 12
    RESET_DYNAMIC_COLOR = 13
    CURRENT_WORKING_DIRECTORY = 14
    RESET_COLORS = 15
    RXVT_EXTENSION = 16
    CONEMU_PROGRESS = 17
    PROMPT_FRESH_LINE = 18
    PROMPT_FRESH_LINE_AND_START_PROMPT = 19
    PROMPT_END_OF_COMMAND_WITH_FRESH_LINE = 20
    PROMPT_START_PROMPT = 21
    PROMPT_START_OF_INPUT_UNTIL_NEXT_MARKER = 22
    PROMPT_START_OF_INPUT_UNTIL_END_OF_LINE = 23
    PROMPT_START_OF_OUTPUT = 24
    PROMPT_COMMAND_STATUS = 25
    ITERM_SET_MARK = 26
    ITERM_STEAL_FOCUS = 27
    ITERM_CLEAR_SCROLLBACK = 28
    ITERM_CURRENT_DIR = 29
    ITERM_SET_PROFILE = 30
    ITERM_COPY_TO_CLIPBOARD = 31
    ITERM_END_COPY = 32
    ITERM_HIGHLIGHT_CURSOR_LINE = 33
    ITERM_REQUEST_CELL_SIZE = 34
    ITERM_REPORT_CELL_SIZE = 35
    ITERM_COPY = 36
    ITERM_REPORT_VARIABLE = 37
    ITERM_SET_USER_VAR = 38
    ITERM_SET_BADGE_FORMAT = 39
    ITERM_FILE = 40
    ITERM_SET_UNICODE_VERSION = 41
    ITERM_PUSH_UNICODE_VERSION = 42
    ITERM_POP_UNICODE_VERSION = 43


# The fields with bytes that need not be UTF-8, by their kinds.
_BYTES = {(CommandKind.UNSPECIFIED, FieldName.PART), (CommandKind.ITERM_FILE, FieldName.CONTENT)}


@dataclass(frozen=True, slots=True)
class Command:
    """An operating system command: its kind, and its fields in order."""

    kind: CommandKind
    fields: Fields
    """Numbers and sizes as `int`, texts as `str`, or as `bytes` if they need not be UTF-8. A flag
    is 0 or 1."""

    def get(self, name: FieldName) -> Value | None:
        """Returns the first field of this name, if there is one."""
        return next((value for it, value in self.fields if it == name), None)

    def to_bytes(self) -> bytes:
        """Returns the command, from ESC ] to ESC \\ : `command` reads the text between these as
        this value.

        >>> from escape_stream import command
        >>> command(b"2;a title").to_bytes()
        b'\\x1b]2;a title\\x1b\\\\'

        Raises ValueError if no command has this kind and these fields, or if its text would
        not read back as it, as that of a title with a control; MemoryError if a request for
        memory was refused.
        """
        return written(_library.write_osc, self.fields, self.kind)


def command(text: _library.Bytes) -> Command:
    """Returns the command of the text of an operating system command, that of an event `Osc`. Any
    bytes are such a text.

    >>> from escape_stream import FieldName, command
    >>> command(b"8;id=1;http://example.com/").get(FieldName.URI)
    'http://example.com/'
    >>> command(b"133;D;1").kind.name
    'PROMPT_COMMAND_STATUS'

    Raises MemoryError if a request for memory was refused.
    """
    kind, fields = read(_library.read_osc, _library.RawOsc(), text, _BYTES)
    return Command(CommandKind(kind), fields)


def prompt_value(text: _library.Bytes, key: str) -> bytes | None:
    """Returns the value of a key in the text of a prompt's mark, `133;..`, or None if it is not
    given. So keys can be read that a `Command` has no field for, as `err` and kitty's
    `cmdline_url`. The key `""` is the part without `=`, the status of `133;D;1`: None for `133;D`,
    where a `Command` has 0. The later one of two parts with one key counts.

    >>> from escape_stream import prompt_value
    >>> prompt_value(b"133;C;cmdline_url=ls%20-l", "cmdline_url")
    b'ls%20-l'
    >>> prompt_value(b"133;D;1", ""), prompt_value(b"133;D", "")
    (b'1', None)
    """
    found = None
    for part in _library.bytes_of(text).split(b";")[2:]:
        name, equals, value = part.partition(b"=")
        if equals and key and name == key.encode():
            found = value
        elif not equals and not key and part:
            found = part
    return found
