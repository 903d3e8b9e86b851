"""The program as a process: what is typed, what comes back, and how it ends."""
import os
import subprocess

from support.checking import PATIENCE, same
from support.scpi import IDENTITY

ANSWERED = f"{IDENTITY}\n".encode()  # the answer to `*IDN?`


class Process:
    """The program, with nothing else of ours open."""

    def __init__(self, path):
        self.path = os.path.abspath(path)

    def run(self, words, typed=b"", **options):
        """Runs it on these words and bytes."""
        if "stdin" not in options:
            options["input"] = typed
        options.setdefault("stdout", subprocess.PIPE)
        return subprocess.run([self.path, *words], stderr=subprocess.PIPE, timeout=PATIENCE, **options)

    def check(self, words, typed, told, status=0, fault=b"", **options):
        """What it tells on both outputs, and its status."""
        done = self.run(words, typed, **options)
        if done.stdout is not None:
            same("output", done.stdout, told)
        same("standard error", done.stderr, fault)
        same("status", done.returncode, status)

    def answers(self, typed, told, words=("run",)):
        self.check(words, typed, told)

    def started(self):
        """The program, to be typed to line by line."""
        pipe = subprocess.PIPE
        return subprocess.Popen([self.path, "run"], stdin=pipe, stdout=pipe, stderr=pipe, bufsize=0)
