"""What may come back where growths of memory are refused, by the unit that did nothing for want of it."""
import re

OUT_OF_MEMORY = b"mainframe: out of memory\n"
REFUSED = b'-225,"Out of memory"'
# Units that queue an error of the same kind and leave the path.
STUBS = [
    ('*RMC "NONE"', b'-278,"Macro header not found"'),
    ("*SRE 256", b'-222,"Data out of range"'),
    ('*RMC "1A"', b'-273,"Illegal macro label"'),
]
# Answers that take no memory.
PRINTED = rb'(\d+|\d+\.\d{6}|-?\d+,"[^"]*"|OPENBENCH,SWM8,0,1\.0|1999\.0|IMM|BUS|EXT|TIM|HOLD' \
    rb'|OPENBENCH,0,0,0|SURE|UNS|EMPT|#10)[;\n]'


# ---- transcripts as units


def pieces(text, separator):
    """The parts of a text between separators that stand in no string, parentheses or block."""
    parts, at, begun = [], 0, 0
    while at < len(text):
        block = re.match(r"#([1-9])", text[at:])
        if text[at] in "'\"(":
            end = text.find({"(": ")"}.get(text[at], text[at]), at + 1)
            at = len(text) if end < 0 else end + 1
        elif block and text[at + 2:at + 2 + int(block[1])].isdigit():
            digits = int(block[1])
            at += 2 + digits + int(text[at + 2:at + 2 + digits])
        elif text[at] == separator:
            parts.append(text[begun:at])
            at += 1
            begun = at
        else:
            at += 1
    return parts + [text[begun:]]


def header(unit):
    return re.split(r"[ ?]", unit.strip(), maxsplit=1)[0]


def is_query(unit):
    return re.match(r"\s*[^ ?]*\?", unit) is not None


def absolute(units, index):
    """The units behind this index, spelled so that what stands there may leave another path."""
    path = []
    for unit in units[:index + 1]:
        name = header(unit)
        if name and not name.startswith("*"):
            nodes = name.split(":")[1:] if name.startswith(":") else path + name.split(":")
            path = nodes[:-1]
    rest = units[index + 1:]
    at = next((at for at, unit in enumerate(rest) if not unit.strip().startswith("*")), len(rest))
    if path and at < len(rest) and not rest[at].strip().startswith(":"):
        rest[at] = ":" + ":".join(path) + ":" + rest[at].strip()
    return rest


class Macros:
    """The macros that a transcript has defined up to a line, roughly: enough for those of this repository."""

    def __init__(self):
        self.bodies = {}

    def learn(self, unit):
        found = re.match(r"\s*\*DMC ['\"](\w+)['\"],#(\d)", unit)
        if found:
            body = unit[found.end() + int(found[2]):]
            self.bodies.setdefault(found[1], body)
            for inner in pieces(body, ";"):
                self.learn(inner)

    def expansion(self, unit):
        name = header(unit).lstrip(":")
        if name not in self.bodies:
            return None
        words = unit.strip().split(" ", 1)
        given = pieces(words[1], ",") if len(words) > 1 else []
        return re.sub(r"\$([1-9])", lambda m: given[int(m[1]) - 1] if int(m[1]) <= len(given) else m[0],
                      self.bodies[name])


def may_lack(unit, macros):
    """Whether a unit needs memory."""
    name = header(unit).upper()
    return is_query(unit) or "(@" in unit or name.split(":")[-1].startswith("INIT") \
        or name in ("*DMC", "*RMC", "*GMC") or header(unit).lstrip(":") in macros.bodies


def variants(units, stub, macros):
    """The lines in which one unit is the stub, and those in which one unit's answer, of this index, is lost."""
    for index, unit in enumerate(units):
        if not may_lack(unit, macros):
            continue
        before, after = units[:index], absolute(units, index)
        yield before + [stub] + after, None
        yield before + [stub] + units[index + 1:], None
        inner = macros.expansion(unit)
        if inner is not None:
            for line, lost in variants(pieces(inner, ";"), stub, Macros()):
                yield before + line + units[index + 1:], \
                    None if lost is None else lost + sum(map(is_query, before))
        elif is_query(unit):
            yield before + [unit, stub] + units[index + 1:], sum(map(is_query, before))


def without_answer(told, line, answer):
    """The output without this answer of this line."""
    lines = told.split(b"\n")
    answers = [part.encode() for part in pieces(lines[line].decode(), ";")]
    del answers[answer:answer + 1]
    lines[line:line + 1] = [b";".join(answers)] if answers else []
    return b"\n".join(lines)


def line_of(program, words, lines, line):
    """Which line of the output is that of this line of the transcript."""
    told = program.run(words, "".join(text + "\n" for text in lines[:line]).encode()).told
    return told.count(b"\n")


def explained(program, words, typed, whole):
    """All that may come back where one growth alone is refused and the program continues."""
    lines = typed.decode().splitlines()
    macros, outcomes = Macros(), {whole.told}
    for number, line in enumerate(lines):
        units = pieces(line, ";")
        for unit in units:
            macros.learn(unit)
        place = None
        for (stub, error), variant, lost in (
                (each, *it) for each in STUBS for it in variants(units, each[0], macros)):
            text = "".join(it + "\n" for it in [*lines[:number], ";".join(variant), *lines[number + 1:]])
            told = program.run(words, text.encode()).told
            if lost is not None:
                place = line_of(program, words, lines, number) if place is None else place
                told = without_answer(told, place, lost)
            outcomes.add(told.replace(error, REFUSED))
    return outcomes


# ---- what may come back


def is_front(told, whole):
    """Whether all lines but the last are those of the whole, and the last has the first answers of its own."""
    if not whole.startswith(told[:-1]):
        return False
    return told == b"" or whole[len(told) - 1:len(told)] in (b"\n", b";")


def is_front_then_printed(told, whole):
    """Whether what was told is a front of the whole, with nothing behind it but answers that take no memory."""
    answers = re.findall(rb"[^;\n]*[;\n]", told)
    fronts = (cut for cut in range(len(answers), -1, -1) if is_front(b"".join(answers[:cut]), whole))
    return all(re.fullmatch(PRINTED, answer) for answer in answers[next(fronts):])


def is_front_of_lines(told, whole):
    return whole.startswith(told) and (told == b"" or told.endswith(b"\n"))


def judge(outcome, alone, outcomes, whole):
    """What an outcome is, or nothing where no rule allows it."""
    if outcome.status == 1 and outcome.fault == OUT_OF_MEMORY:
        if alone and is_front_of_lines(outcome.told, whole.told):
            return "ended"
        if not alone and any(is_front_then_printed(outcome.told, it) for it in {whole.told, *outcomes}):
            return "ended"
    if outcome == whole:
        return "unchanged"
    if outcome.fault != b"":
        return None
    if outcome.status == 3 and (outcome.status, outcome.told) == (whole.status, whole.told):
        return "unremarked"
    if outcome.status != 0:
        return None
    if outcome.told in outcomes:
        return "refused"
    if not alone and any(is_front_then_printed(outcome.told, it) for it in outcomes):
        return "silent"
    return None
