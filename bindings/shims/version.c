/* SPDX-License-Identifier: MIT */
/* The version of the library that a program runs with. */
const char *escape_stream_version(void);

const char *escape_stream_version(void) { return ESCAPE_STREAM_VERSION; }
