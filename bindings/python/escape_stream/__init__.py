# SPDX-License-Identifier: MIT
"""Streams of terminal escape sequences: a filter for streams of unknown origin, the normal form,
and a parser.

A stream is bytes as a program writes them to a terminal. Any bytes are a stream.

>>> import escape_stream
>>> escape_stream.filter(b"a\\x1b]0;a title\\x07 \\x1b[1;31mred", escape_stream.Policy.COLOR)
b'a \\x1b[1;31mred'
>>> for event in escape_stream.events([b"caf\\xc3", b"\\xa9\\x1b[2;5H"]):
...     print(event)
Text(text='caf')
Text(text='é')
Csi(prefix='', parameters=((2,), (5,)), intermediates='', final='H', has_more=False)

A proved library does the work: the output of each call is as its contract says, for
every stream. This package is not proved.
"""

from escape_stream._actions import Action, DeviceControl, actions
from escape_stream._commands import Command, CommandKind, command, prompt_value
from escape_stream._devices import Sixel, SixelItem, SixelKind, TermcapQuery, sixel, termcap_query
from escape_stream._events import (
    Apc,
    Control,
    Csi,
    Data,
    Dcs,
    DcsEnd,
    Escape,
    Event,
    Limit,
    Osc,
    Text,
)
from escape_stream._fields import FieldName
from escape_stream._filter import Filter
from escape_stream._functions import Function, function, value
from escape_stream._html import Page, html
from escape_stream._images import Image, ImageKind, Medium, image
from escape_stream._library import VERSION as __version__
from escape_stream._normaliser import Normaliser
from escape_stream._parser import Parser, events, joined
from escape_stream._sanitizer import (
    MOST_COLUMNS,
    MOST_ROWS,
    Account,
    Characters,
    Encoding,
    Framing,
    Group,
    Links,
    Returns,
    Sanitizer,
    Show,
)
from escape_stream._screen import (
    Char,
    Cursor,
    Link,
    Request,
    RequestKind,
    Screen,
    Underline,
)
from escape_stream._strings import (
    CONTROL_STRINGS,
    ControlString,
    control_string,
    control_string_named,
)
from escape_stream._whole import DEFAULT_LIMIT, Policy, filter, is_normal, normal

__all__ = [
    "CONTROL_STRINGS",
    "DEFAULT_LIMIT",
    "MOST_COLUMNS",
    "MOST_ROWS",
    "Account",
    "Action",
    "Apc",
    "Char",
    "Characters",
    "Command",
    "CommandKind",
    "Control",
    "ControlString",
    "Csi",
    "Cursor",
    "Data",
    "Dcs",
    "DcsEnd",
    "DeviceControl",
    "Encoding",
    "Escape",
    "Event",
    "FieldName",
    "Filter",
    "Framing",
    "Function",
    "Group",
    "Image",
    "ImageKind",
    "Limit",
    "Link",
    "Links",
    "Medium",
    "Normaliser",
    "Osc",
    "Page",
    "Parser",
    "Policy",
    "Request",
    "RequestKind",
    "Returns",
    "Sanitizer",
    "Screen",
    "Show",
    "Sixel",
    "SixelItem",
    "SixelKind",
    "TermcapQuery",
    "Text",
    "Underline",
    "__version__",
    "actions",
    "command",
    "control_string",
    "control_string_named",
    "events",
    "filter",
    "function",
    "html",
    "image",
    "is_normal",
    "joined",
    "normal",
    "prompt_value",
    "sixel",
    "termcap_query",
    "value",
]
