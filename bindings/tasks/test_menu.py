# SPDX-License-Identifier: MIT
"""Tests a program with a text interface: it runs in a terminal of 30 columns and 5 lines, gets
keys, and what is on its screen is compared."""

import fcntl
import os
import pty
import select
import struct
import sys
import termios
import unittest

from escape_stream import Screen

COLUMNS, LINES = 30, 5
# The program: a menu over curses. The one that you test has a file of its own.
MENU = """
import curses

def main(window):
    curses.curs_set(0)
    chosen, entries = 0, ["open", "save", "quit"]
    while True:
        for at, entry in enumerate(entries):
            window.addstr(at, 2, entry, curses.A_REVERSE if at == chosen else 0)
        key = window.getkey()
        if key == "j":
            chosen = min(chosen + 1, 2)
        elif key == "q":
            return

curses.wrapper(main)
"""


class Session:
    """A program in a terminal, and its screen."""

    def __init__(self, *words):
        self.screen = Screen(COLUMNS, LINES)
        self.pid, self.terminal = pty.fork()
        if self.pid == 0:
            os.environ["TERM"] = "xterm"
            os.execvp(words[0], words)
        size = struct.pack("HHHH", LINES, COLUMNS, 0, 0)
        fcntl.ioctl(self.terminal, termios.TIOCSWINSZ, size)

    def wait_for(self, is_so, seconds=20):
        """Feeds the screen until it is as it has to be, or says what is there."""
        while not is_so(self.screen):
            if not select.select([self.terminal], [], [], seconds)[0]:
                raise AssertionError("\n".join(self.screen.display))
            self.screen.feed(os.read(self.terminal, 4096))

    def press(self, keys):
        os.write(self.terminal, keys.encode())

    def close(self):
        os.close(self.terminal)
        os.waitpid(self.pid, 0)
        self.screen.close()


def reversed_text(screen):
    """Returns the text in reverse video."""
    return "".join(cell.data for line in screen.buffer for cell in line if cell.reverse)


class MenuTest(unittest.TestCase):
    def test_the_next_entry_is_chosen(self):
        session = Session(sys.executable, "-c", MENU)
        self.addCleanup(session.close)
        session.wait_for(lambda it: "quit" in it.display[2])
        self.assertEqual(session.screen.display[0], "  open".ljust(COLUMNS))
        session.wait_for(lambda it: reversed_text(it) == "open")
        session.press("j")
        session.wait_for(lambda it: reversed_text(it) == "save")
        session.press("q")


if __name__ == "__main__":
    unittest.main()
