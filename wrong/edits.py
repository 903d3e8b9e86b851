"""The wrong bodies of a crate, as wrong/CRATE.edits has them: a block for each, sorted by name, an empty line between.

    [opens_two_of_a_group]
    fn: relays::close
    file: src/relays.rt
    old: if is_free(channel) {
    new: if true {

`fn:` is the function, below its modules, whose contract has to refuse the edit. `old:` stands once in the file, and
`new:` in its place; each is the rest of its line behind one space. A further pair applies to what those before it made,
in the same file up to the next `file:`. An edit without `fn:`, as one of a constant, may be refused by any function.
A block with the line `always:` is tried by each gate, whatever is recorded.
An edit of a definition (`file: specs/..`) turns code and definition alike, and its `fn:` is the law that refuses it.
"""
import os
import re

NAME = re.compile(r"\[([a-z0-9_]+)\]")
LINE = re.compile(r"(fn|file|old|new|always):(?: (.*))?")


class Edit:
    """One wrong body: which texts it replaces, each with its file, and which function it turns."""

    def __init__(self, crate, name, line):
        self.crate, self.name, self.line = crate, name, line
        self.function, self.pairs, self.fault = None, [], None
        self.is_always = False
        self.file = self.old = None

    def label(self):
        return f"wrong/{self.crate}.edits:{self.line}: {self.name}"

    def key(self):
        return f"{self.crate}:{self.name}"

    def turns_definition(self):
        return any(file.startswith("specs/") for file, _, _ in self.pairs)

    def take(self, key, text):
        """Takes a line of the block; answers what is wrong with it, if anything is."""
        if key == "new":
            if self.old is None:
                return "`new:` without a line `old:` before it"
            self.pairs.append((self.file, self.old, text))
            self.old = None
        elif self.old is not None:
            return f"`{key}:` where the line `new:` of the text before it is missing"
        elif key == "always":
            if text:
                return "`always:` with a text behind it"
            self.is_always = True
        elif key == "fn" and (self.function or not text):
            return "a second `fn:`" if self.function else "`fn:` without a function"
        elif key == "fn":
            self.function = text
        elif key == "file":
            if os.path.normpath(text) != text or not text.startswith(("src/", "specs/")):
                return "`file:` names no file of src/ or specs/"
            self.file = text
        elif not self.file or not text:
            return "`old:` without a line `file:` before it" if not self.file else "`old:` without a text"
        else:
            self.old = text
        return None

    def missing(self):
        """What the whole block lacks, if anything."""
        if self.old is not None:
            return "its last line `new:` is missing"
        if not self.pairs:
            return "it has no pair of lines `old:` and `new:`"
        if self.turns_definition() and not self.function:
            return "it turns a definition, and has no line `fn:` with the law that refuses it"
        return None


def edits_of(text, crate):
    """The edits of a file's text. Where one cannot be read, its `fault` says why, and its `line` where."""
    edits = []
    for number, line in enumerate(text.split("\n"), 1):
        head, told, fault = NAME.fullmatch(line), LINE.fullmatch(line), None
        if head:
            if edits and edits[-1].name >= head[1]:
                fault = f"it is behind `{edits[-1].name}`, and blocks are sorted by name"
            edits.append(Edit(crate, head[1], number))
        elif line and not edits:
            edits.append(Edit(crate, "?", number))
        if line and not head:
            fault = edits[-1].take(told[1], told[2] or "") if told else "it is no line of a block"
        if fault and not edits[-1].fault:
            edits[-1].fault, edits[-1].line = fault, number
    for edit in edits:
        edit.fault = edit.fault or edit.missing()
    return edits
