# SPDX-License-Identifier: MIT
"""Prints the commands of a recording, by the marks that shells put around prompts (OSC 133): each
with its output and its status, None if the shell gave none. A shell that writes the line beside the
prompt (`cmdline_url`) is believed."""

import sys
from urllib.parse import unquote_to_bytes

import escape_stream
from escape_stream import CommandKind, Control, FieldName, Osc, Parser, Text, prompt_value


def commands(chunks):
    """Yields the line, the output and the status of each command."""
    parser, place, line, output = Parser(), None, "", ""
    for chunk in chunks:
        for event in parser.feed(chunk):
            match event:
                case Text(text) if place == "line":
                    line += text
                case Text(text) if place == "output":
                    output += text
                case Control(0x0A) if place == "output":
                    output += "\n"
                case Osc(text):
                    mark = escape_stream.command(text)
                    match mark.kind:
                        case CommandKind.PROMPT_START_OF_INPUT_UNTIL_NEXT_MARKER:
                            place, line = "line", ""
                        case CommandKind.PROMPT_START_OF_OUTPUT:
                            place, output = "output", ""
                            if url := prompt_value(text, "cmdline_url"):
                                line = unquote_to_bytes(url).decode(errors="replace")
                        case CommandKind.PROMPT_COMMAND_STATUS:
                            status = mark.get(FieldName.STATUS) if prompt_value(text, "") else None
                            yield line.strip(), output, status
                            place = None


def main():
    with open(sys.argv[1], "rb") as recording:
        chunks = iter(lambda: recording.read(7), b"")
        for line, output, status in commands(chunks):
            print(f"{line}: {status}: {output!r}")


main()
