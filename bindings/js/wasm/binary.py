# SPDX-License-Identifier: MIT
"""The binary form of WebAssembly modules, as far as keep-exports and reorder read
and write it."""

IMPORTS, FUNCTIONS, EXPORTS, START, ELEMENTS, CODE = 2, 3, 7, 8, 9, 10
# Of an object file: the table of symbols, kinds of these, and two flags. A symbol that is not
# data has the number of what it names.
SYMBOLS, FUNCTION, DATA, SECTION, INDEXED = 8, 0, 1, 3, (0, 2, 3, 4, 5)
UNDEFINED, NAMED = 0x10, 0x40


def number(data, at):
    """Returns a number of the LEB128 format, and where it ends."""
    value = shift = 0
    while True:
        value |= (data[at] & 0x7F) << shift
        shift += 7
        at += 1
        if data[at - 1] < 0x80:
            return value, at


def written(value):
    """Returns a number in the LEB128 format."""
    out = bytearray()
    while value >= 0x80:
        out.append(value & 0x7F | 0x80)
        value >>= 7
    return bytes([*out, value])


def sized(data):
    """Returns bytes after their length."""
    return written(len(data)) + data


def sections(module):
    """Gives the kind of each section, and its bytes."""
    at = 8
    while at < len(module):
        length, start = number(module, at + 1)
        yield module[at], module[start : start + length]
        at = start + length


def module_of(sections):
    """Returns the module of these sections."""
    head = b"\0asm\1\0\0\0"
    return head + b"".join(bytes([kind]) + sized(data) for kind, data in sections)


def exports(section):
    """Gives the name of each export, its kind and the number of what is exported."""
    count, at = number(section, 0)
    for _ in range(count):
        length, start = number(section, at)
        end = start + length
        value, at = number(section, end + 1)
        yield section[start:end], section[end], value


def export_section(entries):
    """Returns the section of these exports."""
    entries = [sized(name) + bytes([kind]) + written(value) for name, kind, value in entries]
    return written(len(entries)) + b"".join(entries)


def symbols(section):
    """Gives the name of each function that an object file defines, and where its flags lie in the
    section `linking`. Any other section has none."""
    length, at = number(section, 0)
    if section[at : at + length] != b"linking":
        return
    _, at = number(section, at + length)
    while at < len(section):
        kind = section[at]
        length, at = number(section, at + 1)
        if kind == SYMBOLS:
            yield from functions_of(section, at)
        at += length


def functions_of(section, at):
    """Gives these of a table of symbols at a place."""
    count, at = number(section, at)
    for _ in range(count):
        kind, start = section[at], at + 1
        flags, end = number(section, start)
        is_defined = not flags & UNDEFINED
        name, at = b"", end
        if kind in INDEXED:
            _, at = number(section, at)
        if kind == DATA or kind in INDEXED and kind != SECTION and (is_defined or flags & NAMED):
            length, at = number(section, at)
            name, at = section[at : at + length], at + length
        if kind == DATA and is_defined:
            for _ in range(3):
                _, at = number(section, at)
        if kind == FUNCTION and is_defined:
            yield name, start, end
