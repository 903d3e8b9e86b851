"""The rooms in which wrong bodies are checked: copies of a crate, each with the work that its checks keep.

A room's checks stand on the libraries of the crates below as `build/lanes.py` has them, with what each states.
"""
import pathlib
import shutil
import subprocess

from crates import PARTS


class Room:
    """A copy of a crate in a folder, where edits are put in and checked."""

    def __init__(self, crates, crate, at):
        self.crates, self.crate, self.folder = crates, crate, pathlib.Path(at)
        self.clean = crates.root / "crates" / crate
        for part in PARTS:
            self.restore(part)

    def restore(self, part):
        """Makes a part of the crate here what it is in the repository."""
        shutil.rmtree(self.folder / part, ignore_errors=True)
        if (self.clean / part).is_dir():
            shutil.copytree(self.clean / part, self.folder / part)

    def another(self, at):
        """A further room of the same crate, which begins with the work that this one's checks kept."""
        if (self.folder / "kept").is_dir():
            shutil.copytree(self.folder / "kept", pathlib.Path(at) / "kept")
        return Room(self.crates, self.crate, at)

    def check(self, texts, functions, jobs=1):
        """The status and the lines of a check of these functions, or with none, of the crate, with these texts in place
        of its own."""
        for part in ("src", "specs"):
            self.restore(part)
        for path, text in texts.items():
            (self.folder / path).write_text(text, encoding="utf-8")
        words = [*self.crates.check(self.crate, jobs), "--incremental", str(self.folder / "kept")]
        for function in functions:
            words += ["--only", f"{self.crate}::{function}"]
        ran = subprocess.run(words, cwd=self.folder, stdin=subprocess.DEVNULL, stdout=subprocess.PIPE,
                             stderr=subprocess.STDOUT, text=True, errors="replace")
        return ran.returncode, ran.stdout.split("\n")
