"""The program with cards of its own, `crates/own_cards`, over files in place of boards and a meter."""
import contextlib
import fcntl
import os
import pathlib
import subprocess
import tempfile
import termios

from support import ROOT
from support.checking import wait_until
from support.server import free_port, is_refused


class PipedMeter:
    """A meter that is a pipe, and shows whether its line is taken."""

    def __init__(self, path):
        os.mkfifo(path)
        self.pipe = open(path, "r+b", buffering=0)

    def tell(self, nanovolts):
        self.pipe.write(f"{nanovolts}\n".encode())

    def is_unread(self):
        return any(fcntl.ioctl(self.pipe, termios.FIONREAD, bytes(4)))


@contextlib.contextmanager
def own_cards(make_meter):
    """The program with cards of its own, over a board that is a file, and a meter that is made at a path."""
    program = ROOT / "crates/own_cards/out/own_cards"
    port = free_port()
    with tempfile.TemporaryDirectory() as folder:
        board, meter = pathlib.Path(folder, "board"), pathlib.Path(folder, "meter")
        board.touch()
        made = make_meter(meter)
        words = [program, str(port), board, meter]
        with subprocess.Popen(words, stdin=subprocess.PIPE, stderr=subprocess.PIPE, text=True) as server:
            try:
                wait_until("a server", lambda: not is_refused(port))
                yield server, port, board, made
            finally:
                server.kill()
