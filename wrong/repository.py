"""The crates of the repository, their wrong bodies, and the record of those that were refused.

wrong/record has a hash for each such body: of the edit as it is read, of what the prover sees in judging the function
that it turns (seen.py), of what judges it (judging.py), of the kit's logic and of the kit's libraries that the crate
names. By these alone an edit is refused or not. So the bodies and proofs of other functions, tests, comments, the form
of an edits file, where a check takes place (rooms.py) and the other scripts don't count.
An edit that names no function, or turns a definition or more than the text of one function, counts the whole crate.
"""
import fcntl
import hashlib
import os
import pathlib
import subprocess
import sys

HERE = os.path.dirname(os.path.abspath(__file__))
sys.path.append(f"{HERE}/../build")
import seen
from crates import Crates
from edits import edits_of

RT = os.environ.get("RT", "rt")


class Repository:
    def __init__(self, root):
        self.root = root
        self.texts = self.judging = self.known = None
        self.crates = Crates(pathlib.Path(root), RT, None)
        self.below = self.crates.below
        version = subprocess.run([RT, "version"], capture_output=True, text=True, check=True).stdout
        # By this a contract holds or doesn't, whatever the kit is called.
        self.logic = version.partition("logic ")[2] or version

    def edits(self, crate):
        try:
            with open(f"{self.root}/wrong/{crate}.edits", encoding="utf-8") as it:
                return edits_of(it.read(), crate)
        except FileNotFoundError:
            return []

    def strays(self):
        """What holds wrong bodies that no crate has, and why."""
        for name in sorted(os.listdir(f"{self.root}/wrong")):
            crate, end = os.path.splitext(name)
            if end == ".edits" and crate not in self.below:
                yield name, f"crates.txt has no crate {crate}"
            elif os.path.isdir(f"{self.root}/wrong/{name}") and name != "__pycache__":
                yield name, f"a folder; the wrong bodies of a crate are in wrong/{name}.edits"

    def hash_of(self, edit):
        """The hash of all by which an edit is refused or not, by the texts as they were at the first call."""
        if not self.texts:
            self.texts = seen.Crates(self.root, self.below)
            with open(f"{HERE}/judging.py", encoding="utf-8") as it:
                self.judging = it.read()
        of_kit = sorted(it for it in self.below[edit.crate] if it not in self.below)
        told = (self.logic, of_kit, self.judging, edit.function, edit.pairs, edit.fault)
        return hashlib.sha256(repr((told, self.texts.of_edit(edit))).encode()).hexdigest()

    def stale(self, edits):
        """Those of these edits that aren't recorded as refused by what decides them now, or are always tried, each with
        its hash."""
        record = self.record()
        hashes = {edit: self.hash_of(edit) for edit in edits}
        return {edit: it for edit, it in hashes.items() if edit.is_always or record.get(edit.key()) != it}

    def record(self):
        try:
            with open(f"{self.root}/wrong/record", encoding="utf-8") as lines:
                return dict(line.split() for line in lines if line.strip())
        except FileNotFoundError:
            return {}

    def put(self, edit, kept):
        """Records an edit as refused by this hash, or as not refused where it is None; a reader sees all or nothing."""
        folder = os.open(f"{self.root}/wrong", os.O_RDONLY)
        try:
            fcntl.flock(folder, fcntl.LOCK_EX)
            record = {key: it for key, it in self.record().items() if key in self.keys() and key != edit.key()}
            if kept:
                record[edit.key()] = kept
            with open(f"{self.root}/wrong/record.new", "w", encoding="utf-8") as it:
                it.writelines(f"{key} {record[key]}\n" for key in sorted(record))
            os.replace(f"{self.root}/wrong/record.new", f"{self.root}/wrong/record")
        finally:
            os.close(folder)

    def keys(self):
        """By which words wrong/record has the wrong bodies of all crates."""
        if self.known is None:
            self.known = {edit.key() for crate in self.below for edit in self.edits(crate)}
        return self.known
