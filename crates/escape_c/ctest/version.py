# SPDX-License-Identifier: MIT
"""Loads the shared object, filters by it, and prints its version: version.py FILE."""

import ctypes
import sys

library = ctypes.CDLL(sys.argv[1])
library.escape_stream_version.restype = ctypes.c_char_p
library.escape_stream_filter.argtypes = [ctypes.c_uint32, ctypes.c_size_t, ctypes.c_char_p]
library.escape_stream_filter.argtypes += [ctypes.c_size_t, ctypes.c_char_p, ctypes.c_size_t]
library.escape_stream_filter.argtypes += [ctypes.POINTER(ctypes.c_size_t)]

stream = b"a\x1b]0;t\x07b"
out, needed = ctypes.create_string_buffer(8), ctypes.c_size_t()
status = library.escape_stream_filter(0, 99, stream, len(stream), out, 8, needed)
if (status, out.raw[: needed.value]) != (0, b"ab"):
    sys.exit("the filter wrote something else")
print(library.escape_stream_version().decode())
