"""What the prover sees in judging one function, or a whole crate: of the crate itself and of the crates below.

A function is proved against the contracts of others, never against their bodies or proofs. So the function whose body
is turned counts whole, with its attributes, its cycle and its proof files, and of the rest what these texts name, or
what that names, and so on: a definition, a type with its fields and its impls of traits, a trait and a constant whole,
a lemma by its statement, a function by its head and contract. A definition outside `specs` that isn't an `abbrev`,
`unfoldable`, `record` or `data` is opaque, and counts as a lemma does.
What a word stands for is told by the file's own items, by the `use` that brings it, which counts too, or by the path
that it is part of; a path that leads to no item of a file stands for all of its name in the crate. Of a type that is
named, a method is seen where a text that has code has its name, and every trait that it has. Of the crates below,
private methods and what a type's model hides don't count. Comments and layout don't count anywhere (texts.py).
"""
import hashlib
import os
import re

from texts import Item, bodies_of, definition_items, plain, source_items, uses_of

PATH = re.compile(r"[^\W\d]\w*(?:::[^\W\d]\w*)+")
TOP = re.compile(r"(?m)^#!\[.*$")


class Crates:
    """The texts of all crates, by file, and what is seen from some of them."""

    def __init__(self, root, below):
        self.below, self.raw, self.texts, self.kept, self.next = below, {}, {}, {}, {}
        for crate in below:
            for part in ("src", "specs", "proofs"):
                for at, _, files in os.walk(f"{root}/crates/{crate}/{part}"):
                    for file in files:
                        with open(f"{at}/{file}", encoding="utf-8") as it:
                            self.raw[os.path.relpath(f"{at}/{file}", f"{root}/crates")] = it.read()
        self.raw = {it: text for it, text in self.raw.items() if "/src/tests/" not in it}
        self.texts = {it: plain(it, text) for it, text in self.raw.items()}
        self.files = {crate: [it for it in self.texts if it.startswith(f"{crate}/")] for crate in below}
        self.uses = {it: list(uses_of(text)) for it, text in self.texts.items()}

    def once(self, key, make):
        """What was made of this key, or is made now."""
        if key not in self.kept:
            self.kept[key] = make()
        return self.kept[key]

    def items(self, file, is_own):
        """The items of a file, as its own crate sees them or as one above."""
        read = source_items if file.endswith(".rt") else definition_items
        return self.once((file, is_own), lambda: read(file, self.texts[file], is_own))

    def all_items(self, crate, is_own, part=""):
        """The items of all files of a crate, or of one part of it."""
        files = (it for it in self.files[crate] if it.startswith(f"{crate}/{part}"))
        return self.once((crate, part, is_own), lambda: [it for file in files for it in self.items(file, is_own)])

    def closure(self, crate):
        """The crates of the repository that this one stands on, and itself."""
        below = (it for it in self.below[crate] if it in self.below)
        return self.once((crate,), lambda: {crate}.union(*map(self.closure, below)))

    def module(self, crate, folder, path, end):
        """The file of the longest beginning of a path that is a module, and what of the path is left."""
        for count in range(len(path), 0, -1):
            for name in (f"{'/'.join(path[:count])}{end}", f"{'/'.join(path[:count])}/mod{end}"):
                if f"{crate}/{folder}/{name}" in self.texts:
                    return f"{crate}/{folder}/{name}", path[count:]
        return None, path

    def resolve(self, item, path):
        """The items that a path stands for in the text of this item."""
        crate, part, rest = item.crate, "src", path[1:]
        if path[:1] == ["Rattle"] and len(path) > 2 and path[1] in self.below:
            crate, part, rest = path[1], path[2], [it.lstrip("+") for it in path[3:]]
        elif path[:1] == ["crate"] and rest[:1] in (["proofs"], ["specs"]):
            part, rest = rest[0], rest[1:]
        elif path[:1] and path[0] in self.below:
            crate, part = path[0], ""
        elif path[:1] not in (["crate"], ["self"], ["super"]):
            return []
        is_own = item.is_own and crate == item.crate
        is_made = part == "specs" and rest[:1] in (["declared"], ["contracts"])
        file, left = (None, rest) if is_made or not part else self.module(crate, part, rest, ".antt")
        if not file and part:
            file, left = self.module(crate, "src", rest[1:] if is_made else rest, ".rt")
        found = [it for it in self.items(file, is_own) if not left or not it.names.isdisjoint(left)] if file else []
        if not found:
            found = [it for it in self.all_items(crate, is_own) if not it.names.isdisjoint(left)]
        return found if part or is_own else [it for it in found if it.is_public]

    def modules(self, item, path):
        """The items that a path stands for which begins with the name of a module of the same crate."""
        ends = (f"/{path[0]}.rt", f"/{path[0]}/mod.rt")
        files = [it for it in self.files[item.crate] if it.endswith(ends)]
        return [it for file in files for it in self.items(file, item.is_own) if not it.names.isdisjoint(path[1:])]

    def follows(self, item):
        """The items that one names, and a hash of it with the lines by which it names them."""
        if item not in self.next:
            own = self.items(item.file, item.is_own) if item.file in self.texts else []
            found = {it for it in own if item.has_code or it.kind not in ("function", "method")}
            found = {it for it in found if it.kind != "method" and not it.names.isdisjoint(item.words)}
            uses = [it for it in self.uses.get(item.file, []) if it.is_in(item)]
            paths = [it.path for it in uses] + [it.split("::") for it in PATH.findall(item.text)]
            found.update(it for path in paths for it in self.resolve(item, path))
            found.update(it for path in paths if item.has_code for it in self.modules(item, path))
            told = repr((item.file, item.text, sorted({it.told for it in uses})))
            self.next[item] = found, hashlib.sha256(told.encode()).hexdigest()
        return self.next[item]

    def late(self, crate, words, called):
        """The impls of traits, and the methods with their types, that these words bring, of a crate and those below."""
        def made():
            impls, methods = {}, {}
            closure = sorted(self.closure(crate))
            for item in (it for below in closure for it in self.all_items(below, below == crate, "src/")):
                if item.kind == "trait":
                    for name in item.names | item.blanket:
                        impls.setdefault(name, []).append(item)
                elif item.kind == "method" and (item.is_own or item.is_public):
                    for name in item.names:
                        methods.setdefault(name, []).append(item)
            return impls, methods

        impls, methods = self.once((crate, "late"), made)
        for word in words & impls.keys():
            yield from (it for it in impls[word] if word in it.names or word in called)
        for word in called & methods.keys():
            yield from (it for it in methods[word] if it.owner in words)

    def seen_by(self, crate, starts):
        """The hashes of what is seen from these items of a crate, sorted."""
        todo, seen, words, called = set(starts), set(), set(), set()
        while todo:
            while todo:
                item = todo.pop()
                seen.add(item)
                words |= item.words | item.names
                called |= item.words if item.has_code else set()
                todo |= self.follows(item)[0] - seen
            todo = set(self.late(crate, words, called)) - seen
        return sorted({self.follows(it)[1] for it in seen})

    def start(self, file, text):
        """A text of a crate itself from which a look starts."""
        item = Item(file, set(), text, has_code=True)
        item.is_own = True
        return item

    def heads(self, crate):
        """What the root of a crate says of all its functions."""
        roots = (f"{crate}/src/{it}.rt" for it in ("lib", "main"))
        return [self.start("", it) for root in roots for it in TOP.findall(self.texts.get(root, ""))]

    def functions(self, file):
        return self.once((file, "functions"), lambda: bodies_of(self.texts[file]))

    def turned(self, edit):
        """The file and the function that an edit turns, or None where it turns another text or more than one."""
        file, found = f"{edit.crate}/{edit.pairs[0][0]}", None
        if file not in self.texts or any(path != edit.pairs[0][0] for path, _, _ in edit.pairs):
            return None
        text = self.raw[file]
        for _, old, new in edit.pairs:
            functions = bodies_of(plain(file, text)) if found else self.functions(file)
            at = text.find(old)
            within = [it for it in functions if it.start <= at and at + len(old) <= it.end]
            if at < 0 or not within or within[0].name != edit.function.split("::")[-1]:
                return None
            if found and found.start != within[0].start:
                return None
            found, text = found or within[0], text.replace(old, new)
        return file, found

    def proofs(self, crate, functions):
        """The proof files in folders of these functions' names and cycles, in any module; of a method any impl's."""
        names = {it.name for it in functions}.union(*(it.cycles for it in functions))
        if any(it.top for it in functions):
            names.add("TheImpl")
        for file in (it for it in self.files[crate] if it.startswith(f"{crate}/proofs/")):
            if names & {it.lstrip("+") for it in file.split("/")[2:-1]}:
                yield file

    def of_function(self, edit, file, function):
        """What the prover sees in judging this function, turned by this edit."""
        cycles = [it for it in self.functions(file) if it is function or it.cycles & function.cycles]
        starts = [self.start(file, it.text) for it in cycles]
        starts += [self.start(file, new) for _, _, new in edit.pairs]
        starts += [self.start(file, it) for it in TOP.findall(self.texts[file])]
        starts += [self.start(it, self.texts[it]) for it in self.proofs(edit.crate, cycles)]
        return self.seen_by(edit.crate, [*starts, *self.heads(edit.crate)])

    def of_crate(self, crate):
        """What the prover sees in judging all functions of a crate."""
        starts = [self.start(it, self.texts[it]) for it in self.files[crate]]
        return self.once((crate, "whole"), lambda: self.seen_by(crate, starts))

    def of_edit(self, edit):
        """What the prover sees in judging this edit."""
        is_one = edit.function and not edit.fault and not edit.turns_definition()
        found = self.turned(edit) if is_one else None
        return self.of_function(edit, *found) if found else self.of_crate(edit.crate)
