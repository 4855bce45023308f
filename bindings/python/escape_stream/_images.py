# SPDX-License-Identifier: MIT
"""The values of commands of kitty's graphics protocol: their kind, their keys as fields; and the
commands of such values."""

from dataclasses import dataclass
from enum import IntEnum

from escape_stream import _library
from escape_stream._fields import Fields, FieldName, Value, read, written


class ImageKind(IntEnum):
    """Which command it is. `escape_stream.h` says which fields each has."""

    NONE = 0
    TRANSMIT_DATA = 1
    TRANSMIT_DATA_AND_DISPLAY = 2
    DISPLAY = 3
    QUERY = 4
    TRANSMIT_FRAME = 5
    COMPOSE_FRAME = 6
    DELETE_ALL = 7
    DELETE_BY_IMAGE_ID = 8
    DELETE_BY_IMAGE_NUMBER = 9
    DELETE_AT_CURSOR_POSITION = 10
    DELETE_ANIMATION_FRAMES = 11
    DELETE_AT = 12
    DELETE_AT_Z = 13
    DELETE_COLUMN = 14
    DELETE_ROW = 15
    DELETE_Z = 16
    DELETE_BY_IMAGE_ID_RANGE = 17


class Medium(IntEnum):
    """The kind of the field `CONTENT` of an image."""

    PAYLOAD = 0
    """The pixels as they came, in base64."""
    BYTES = 1
    """The pixels. No text is read so."""
    FILE = 2
    """The path of a file."""
    TEMPORARY_FILE = 3
    """That of a file which the terminal deletes once it is read."""
    SHARED_MEMORY = 4
    """The name of a shared memory object."""


@dataclass(frozen=True, slots=True)
class Image:
    """A command of kitty's graphics protocol: its kind, and its fields in order."""

    kind: ImageKind
    fields: Fields
    """Numbers as `int`, texts as `str`. A flag is 0 or 1."""

    def get(self, name: FieldName) -> Value | None:
        """Returns the field of this name, if there is one."""
        return next((value for it, value in self.fields if it == name), None)

    def to_bytes(self) -> bytes:
        """Returns the command, from ESC _ to ESC \\ : `image` reads the text between these as
        this value.

        >>> from escape_stream import image
        >>> image(b"Gs=10,f=24,v=20;AAAA").to_bytes()
        b'\\x1b_Gf=24,s=10,v=20;AAAA\\x1b\\\\'

        Raises ValueError if no command has this kind and these fields, or if its text would
        not read back as it, as that of pixels that are not in base64; MemoryError if a request
        for memory was refused.
        """
        return written(_library.write_kitty, self.fields, self.kind)


def image(text: _library.Bytes) -> Image | None:
    """Returns the image of the text of an application program command, that of an event `Apc`; None
    if it is no image.

    >>> from escape_stream import FieldName, image
    >>> image(b"Gf=24,s=10,v=20;AAAA").get(FieldName.PIXEL_WIDTH)
    10
    >>> image(b"no image") is None
    True

    Raises MemoryError if a request for memory was refused.
    """
    kind, fields = read(_library.read_kitty, _library.RawImage(), text, ())
    return Image(ImageKind(kind), fields) if kind else None
