# SPDX-License-Identifier: MIT
"""The events of a stream, in order."""

from dataclasses import dataclass, field
from typing import TypeAlias

_MOST = 2**63 - 1


@dataclass(frozen=True, slots=True)
class Text:
    """A run of characters, none of them a control. U+FFFD stands for bytes that are no UTF-8."""

    text: str


@dataclass(frozen=True, slots=True)
class Control:
    """A control character of C0, or of C1 (80 to 9F, hexadecimal)."""

    byte: int


@dataclass(frozen=True, slots=True)
class Escape:
    """An escape sequence."""

    intermediates: str
    """The first two intermediates, each a space up to `/`."""
    final: str
    """The final byte."""
    has_more: bool = False
    """Whether more intermediates came."""


@dataclass(frozen=True, slots=True)
class Csi:
    """A control sequence."""

    prefix: str
    """The private prefix, one of `<` `=` `>` `?`, or nothing."""
    parameters: tuple[tuple[int | None, ...], ...]
    """The parameters between `;`, each the numbers between its colons; None is one that is left
    out. Numbers end at 2**63 - 1."""
    intermediates: str
    """The intermediates, each a space up to `/`."""
    final: str
    """The final byte."""
    has_more: bool = False
    """Whether there are more than 256 parameters, separators and intermediates: the first are
    there."""

    def number(self, index: int, default: int) -> int:
        """Returns the parameter of this index, counted from 0, or the default if it is left out;
        of one with colons the first."""
        if not 0 <= index < len(self.parameters):
            return default
        first = self.parameters[index][0]
        return default if first is None else first


@dataclass(frozen=True, slots=True)
class Osc:
    """An operating system command: all bytes between its opener and its end. `command` says what
    they ask for."""

    text: bytes
    end: int | None = field(default=None, compare=False)
    """The byte that ended it, where a parser gave it: 07 (hexadecimal) is BEL, 18 and 1A are CAN
    and SUB, which cancel, 1B is the ESC of `ESC \\` or of another sequence, which is the next
    event, and 80 to 9F a C1 control. Events are equal whatever ended them."""

    @property
    def parts(self) -> list[bytes]:
        """The parts that `;` separates. There is at least one."""
        return self.text.split(b";")


@dataclass(frozen=True, slots=True)
class Dcs:
    """A device control string begins. Its data follow, and then its end."""

    parameters: bytes
    """The bytes that write its parameters: digits and `;`."""
    intermediates: str
    """The first two, a private prefix among them."""
    final: str
    """The final byte."""
    has_more: bool = False
    """Whether more intermediates came."""

    @property
    def numbers(self) -> tuple[int | None, ...]:
        """The parameters as numbers; None is one that is left out. Numbers end at 2**63 - 1."""
        if not self.parameters:
            return ()
        return tuple(map(_number, self.parameters.split(b";")))


@dataclass(frozen=True, slots=True)
class Data:
    """A run of the data of the device control string that began last."""

    data: bytes


@dataclass(frozen=True, slots=True)
class DcsEnd:
    """That string ends."""

    end: int | None = field(default=None, compare=False)
    """The byte that ended it, as of an `Osc`."""


@dataclass(frozen=True, slots=True)
class Apc:
    """An application program command: all bytes between its opener and its end."""

    text: bytes
    end: int | None = field(default=None, compare=False)
    """The byte that ended it, as of an `Osc`."""


@dataclass(frozen=True, slots=True)
class Limit:
    """A string ended that was longer than the limit: its event, and the data of a device
    control string, are left out."""

    end: int | None = field(default=None, compare=False)
    """The byte that ended it, as of an `Osc`, or None if a header over the limit ended."""


def _number(digits: bytes) -> int | None:
    if not digits:
        return None
    short = digits.lstrip(b"0")
    return min(int(short or b"0"), _MOST) if len(short) <= len(str(_MOST)) else _MOST


Event: TypeAlias = Text | Control | Escape | Csi | Osc | Dcs | Data | DcsEnd | Apc | Limit
