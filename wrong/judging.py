"""What the prover says of wrong bodies, and which of them that refuses.

Edits of different functions are tried together in one check of these functions, since each is proved against the
contracts of the others and not against their bodies. An edit counts as refused there only by an open goal or an error
of its own function. Where the check didn't come to a function because it calls another that is turned too, the edit is tried
together with those left over; what is not seen to be refused otherwise is tried once more alone. An edit that the
prover cannot read is a fault of the edit, and is found by halves of its batch. An edit without a function is tried
alone; one of a definition by a check of the law that it names, and no more of the crate.
"""
import os
import re

# A proof file that names what an edit took away says nothing of the contract.
NAMES = re.compile(r"has no field|is not in scope|has no `|was not admitted|is no name|record `[^`]*` \(nearest")


def applied(edit, texts, folder):
    """The texts of the files with an edit put in, or None where it cannot be put in beside what is there."""
    made = dict(texts)
    for path, old, new in edit.pairs:
        if path not in made:
            with open(f"{folder}/{path}", encoding="utf-8") as it:
                made[path] = it.read()
        if made[path].count(old) != 1:
            return None
        made[path] = made[path].replace(old, new)
    return made


def stands_in_its_function(edit, folder):
    """Whether each text that an edit replaces stands in the function that it names."""
    name = edit.function.split("::")[-1]
    for path, old, _ in edit.pairs:
        with open(f"{folder}/{path}", encoding="utf-8") as it:
            text = it.read()
        at = text.find(old)
        heads = re.findall(r"(?m)^\s*(?:pub(?:\([a-z]+\))? )?(?:const |unsafe )*fn (\w+)", text[: at + len(old)])
        if at >= 0 and (not heads or heads[-1] != name):
            return False
    return True


def fault_of(edit, folder):
    """Why an edit is none of the crate in this folder, if so."""
    if edit.fault:
        return edit.fault
    absent = [it for it, _, _ in edit.pairs if not os.path.isfile(f"{folder}/{it}")]
    if absent:
        return f"the crate has no file {absent[0]}"
    if applied(edit, {}, folder) is None:
        return "an `old:` text does not stand once in its file"
    if edit.function and not edit.turns_definition() and not stands_in_its_function(edit, folder):
        return "it changes another function than its line `fn:` names"
    return None


class Said:
    """What a check said, by function."""

    def __init__(self, crate, status, lines):
        self.lines = lines
        verdict = next((it for it in reversed(lines) if it.startswith(("logic=", "only="))), "")
        self.is_proved = status == 0 and verdict.startswith(("logic=proved", "only="))
        self.is_judged = self.is_proved or status == 1 and verdict.startswith(("logic=not-proved", "only="))
        self.is_read = not any(re.match(r"(\./)?(src|specs)/\S+?:\d+:\d+: error: (?!`)", it) for it in lines)
        self.is_judged = self.is_judged and self.is_read
        self.is_refused = status != 0
        self.functions = {}
        for line in lines:
            told = re.match(r"fn " + re.escape(crate) + r"::(\S+?): (.*)", line)
            if told and told[2] != "proved":
                self.functions[told[1]] = told[2]

    def refusal(self, function):
        """Why this function's own contract refuses its body, if it does."""
        told = self.functions.get(function)
        if told is None:
            return None
        goals = re.search(r"did not prove (`[^`]*`)", told)
        if goals:
            return f"open goal {goals[1]}"
        if told.startswith("not proved") or "expected answers" in told:
            # The folder of a function that has others inside begins with `+`.
            *modules, name = function.split("::")
            folder = "/".join([*map(re.escape, modules), r"\+?" + re.escape(name)])
            at = re.compile(r"(\./)?proofs/" + folder + r"/\S+?:\d+:\d+: error: (.*)")
            for found in filter(None, map(at.match, self.lines)):
                if not NAMES.search(found[2]):
                    return found[2][:100]
        return None

    def refusal_of_law(self, function):
        """Why this law does not follow from definitions that were turned: the first of its lemmas that fails."""
        told = self.functions.get(function, "")
        goals = re.search(r"did not prove (`[^`]*`)", told)
        if goals or not told.startswith("not proved"):
            return goals and f"open goal {goals[1]}"
        found = (re.match(r"(\./)?(proofs/\S+?):\d+:\d+: error: (.*)", it) for it in self.lines)
        return next((f"{it[2]}: {it[3]}"[:140] for it in found if it and not NAMES.search(it[3])), None)

    def is_left_over(self, function):
        """Whether the check didn't come to this function, since it calls others that are not proved."""
        return "it calls" in self.functions.get(function, "")

    def any_refusal(self):
        """Why some function of the crate is refused, where one edit alone was put in."""
        return next(filter(None, map(self.refusal, self.functions)), None)

    def first_error(self):
        return next((it for it in self.lines if ": error" in it), self.lines[0] if self.lines else "")[:160]


def functions_of(edits):
    """The functions to check for these edits: none stands for the whole crate, as one without a function needs it."""
    return sorted({it.function for it in edits}) if all(it.function for it in edits) else []


def said_of(room, edits, texts, jobs=1):
    """What a check for these edits says of the crate with these texts in place of its own."""
    return Said(room.crate, *room.check(texts, functions_of(edits), jobs))


def batches_of(edits, folder):
    """The edits in groups that can be put in at once: each of a function of its own."""
    batches = []
    for edit in edits:
        for group in batches:
            texts = None if edit.function in group["functions"] else applied(edit, group["texts"], folder)
            if texts is not None:
                break
        else:
            texts, group = applied(edit, {}, folder), {"functions": set(), "edits": []}
            batches.append(group)
        group["texts"] = texts
        group["functions"].add(edit.function)
        group["edits"].append(edit)
    return batches


def try_alone(room, edit):
    said = said_of(room, [edit], applied(edit, {}, room.clean))
    if said.is_proved:
        return False, f"NOT REFUSED: {edit.function or 'the crate'} is still proved with this edit"
    if not said.is_judged:
        return False, f"BAD EDIT: the prover cannot read the edited text: {said.first_error()}"
    why = said.any_refusal()
    if why:
        return True, f"refused alone: {why}"
    why = "no contract refuses it, only a proof file that names what it took away"
    return False, f"BAD EDIT: {why}: {said.first_error()}"


def try_definition(room, edit):
    said = said_of(room, [edit], applied(edit, {}, room.clean))
    why = said.refusal_of_law(edit.function) if said.is_read else None
    if why:
        return True, f"refused alone: {why}"
    if said.is_refused:
        return False, f"BAD EDIT: the law does not refuse it: {said.first_error()}"
    return False, f"NOT REFUSED: {edit.function} is still proved with this edit"


def try_batch(room, group):
    """Each edit of one group and what became of it: None where the check didn't come to its function."""
    edits = group["edits"]
    if len(edits) == 1:
        yield edits[0], try_alone(room, edits[0])
        return
    said = said_of(room, edits, group["texts"])
    if not said.is_judged:
        for half in (edits[: len(edits) // 2], edits[len(edits) // 2 :]):
            for part in batches_of(half, room.clean):
                yield from try_batch(room, part)
        return
    alone = []
    for edit in edits:
        why = said.refusal(edit.function)
        if why:
            yield edit, (True, f"refused: {why}")
        elif said.is_left_over(edit.function):
            yield edit, None
        else:
            alone.append(edit)
    yield from ((edit, try_alone(room, edit)) for edit in alone)


def try_together(room, edits, folder):
    """Each edit and what became of it, for edits that each name their function, as soon as it is known."""
    while edits:
        left = []
        for group in batches_of(edits, folder):
            for edit, became in try_batch(room, group):
                if became:
                    yield edit, became
                else:
                    left.append(edit)
        if len(left) == len(edits):
            yield from ((edit, try_alone(room, edit)) for edit in left)
            return
        edits = left


def try_edits(room, edits):
    """Each edit, whether it is refused, and what is told of it, as soon as it is known, in a crate that is proved."""
    faults = [(edit, fault_of(edit, room.clean)) for edit in edits]
    yield from ((edit, False, f"BAD EDIT: {fault}") for edit, fault in faults if fault)
    good = [edit for edit, fault in faults if not fault]
    together = [it for it in good if it.function and not it.turns_definition()]
    yield from ((edit, *became) for edit, became in try_together(room, together, room.clean))
    for edit in good:
        if not edit.function or edit.turns_definition():
            yield edit, *(try_definition if edit.turns_definition() else try_alone)(room, edit)
