"""`tests/run`, and so the gate: at the end each part has a line, also one that does not reach its end."""
import pathlib
import re
import shutil
import subprocess
import tempfile

from support import ROOT
from support.checking import PATIENCE, same

MEETS = "touch {own}; while [ ! -e {other} ]; do sleep 0.05; done; echo {own}; echo '1 passed, 0 failed'"
AT_ONCE = {"first": MEETS.format(own="one", other="two"), "second": MEETS.format(own="two", other="one")}
PARTS = {"good": "echo some; echo '2 passed, 0 failed'", "bad": "echo '1 passed, 3 failed'", "broken": "echo some"}


def made(parts, *words):
    """The lines, without their seconds, and the status of `tests/run` with these parts, each a line of the shell."""
    with tempfile.TemporaryDirectory() as folder:
        for name in ("run", "parts.sh"):
            shutil.copy(ROOT / "tests" / name, folder)
        for name, text in parts.items():
            file = pathlib.Path(folder, name, "run")
            file.parent.mkdir()
            file.write_text(f"#!/bin/sh\n{text}\n")
            file.chmod(0o755)
        done = subprocess.run([f"{folder}/run", "/bin/true", *words], capture_output=True, text=True, timeout=PATIENCE)
    same("standard error", done.stderr, "")
    return [re.sub(r" +\d+ s  ", " ", line) for line in done.stdout.splitlines()], done.returncode


def each_part_has_a_line_at_the_end(_program):
    lines, status = made(PARTS, *PARTS)
    same("the end", lines[-4:], ["== good 2 passed, 0 failed", "== bad 1 passed, 3 failed",
                                 "== broken did not reach its end", "3 passed, 4 failed"])
    same("status", status, 1)


def parts_are_made_at_once(_program):
    """Each of two waits until the other has begun; a third, which is broken, and then one by itself."""
    lines, status = made({**AT_ONCE, **PARTS}, "first+second+broken", "good")
    ends = ["== first 1 passed, 0 failed", "== second 1 passed, 0 failed", "== broken did not reach its end",
            "== good 2 passed, 0 failed"]
    same("lines", lines, ["== first", "one", "1 passed, 0 failed", ends[0], "== second", "two", "1 passed, 0 failed",
                          ends[1], "== broken", "some", ends[2], "== good", "some", "2 passed, 0 failed", ends[3],
                          *ends, "4 passed, 1 failed"])
    same("status", status, 1)


CHECKS = [each_part_has_a_line_at_the_end, parts_are_made_at_once]
