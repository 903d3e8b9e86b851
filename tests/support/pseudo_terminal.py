"""A process at a pseudo terminal, and what is typed there."""
import contextlib
import fcntl
import os
import pty
import select
import signal
import subprocess
import termios
import time

from support.checking import PATIENCE, Failure, same
from support.scpi import IDENTITY

CTRL_C, CTRL_D, CTRL_P, BACKSPACE = "\x03", "\x04", "\x10", "\x7f"


def in_the_foreground():
    """Ctrl-C is heeded, also where whatever runs the checks ignores it."""
    signal.signal(signal.SIGINT, signal.SIG_DFL)


def at_its_terminal():
    in_the_foreground()
    fcntl.ioctl(0, termios.TIOCSCTTY, 0)


class Terminal:
    """A process at a pseudo terminal of its own."""

    def __init__(self, words, **options):
        self.keys, screen = pty.openpty()
        self.shown = ""
        self.process = subprocess.Popen(words, stdin=screen, stdout=screen, stderr=screen, start_new_session=True,
                                        preexec_fn=at_its_terminal, **options)
        os.close(screen)

    def types(self, text):
        os.write(self.keys, text.encode())

    def shows(self, text):
        """Reads until this stands on the screen, behind what was read before."""
        end = time.monotonic() + PATIENCE
        while text not in self.shown:
            if not select.select([self.keys], [], [], max(end - time.monotonic(), 0))[0]:
                raise Failure(f"{text!r} is not shown, but {self.shown!r}")
            self.shown += os.read(self.keys, 65_536).decode()
        self.shown = self.shown[self.shown.index(text) + len(text):]

    def close(self):
        self.process.kill()
        self.process.wait()
        os.close(self.keys)


def at_a_terminal(words, **options):
    return contextlib.closing(Terminal(words, **options))


def answers_each_line(terminal, prompt=""):
    """Each answer comes before the next line is typed."""
    terminal.types("*IDN?\n")
    terminal.shows(f"{IDENTITY}\r\n{prompt}")
    terminal.types("ROUT:CLOS (@2!9,1!3);CLOS:STAT?\n")
    terminal.shows(f"(@1!3,2!9)\r\n{prompt}")
    terminal.types(CTRL_D)
    same("status", terminal.process.wait(PATIENCE), 0)
