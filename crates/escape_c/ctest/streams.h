/* SPDX-License-Identifier: MIT */
/* Streams of all that a terminal takes, and of what it does not. */
static const char *const STREAMS[] = {
    "plain \x1b[31mred\x1b[m\r\n caf\xc3\xa9 \xe2\x82\xac \xf0\x9f\x98\x80 \xff\xe2\x82(",
    "\x1b]0;a title\x07\x1b]8;;http://example.com/\x1b\\link\x1b]8;;\x1b\\\x1b]0;cut\x18\x1b]\x07",
    "\x1bP1;2;3q#0~~@@vv\n\x7f\xc3\xa9\x1b\\\x1bP+q544e\x1b\\\x1bP1:2q never\x1b\\",
    "\x1b_Gi=1,a=q;AAAA\x1b\\\x1bXno\x1b^no\x9cyes\x1b[?25;1004h\x1b[38:2::1:2:3m\x1b[1;\n2H\x1b[1 q",
    "\x1b(B\x1b#8\x1b $%&'x\x1b" "7\x1b\x1b" "c\x1b\n=\x85\xc2\x85\x9c\x9b" "7m\xc2\x9b" "8m",
    "\x1b]2;t\x07\x1b\\\x1b]2;u\x1b\\\x1b\\\x1bP1$r",
    "",
};
