"""What the documents name is there: files, the definitions of docs/DEFINITIONS.md, the calls and clauses of
docs/PROVED.md."""
import re

from support import ROOT
from support.checking import same

NAME = r"[A-Za-z][\w']*"
DEFINED = re.compile(rf"(?m)^\s*(?:(?:abbrev|pub|record|data|private|opaque) )*({NAME})\b")
DECLARED = re.compile(rf"(?m)^use Rattle[\w.]*\.declared\.[\w.]*\{{({NAME})\}}")  # a type of the sources
FILE = re.compile(r"(?:[\w.-]+/)*[\w-]+\.(?:rt|py|md|antt|txt|service|edits)")
ADDED = {"own_cards/src/banks.rt"}  # files that a walk of docs/ARCHITECTURE.md adds


def text_of(path):
    """The text of a document without its blocks of code."""
    return re.sub(r"(?ms)^```.*?^```$|^    .*?$", "", path.read_text())


def names_in(text):
    """What stands between backticks."""
    return re.findall(r"`([^`]+)`", text)


def each_definition_is_in_its_file(_program):
    """A row of docs/DEFINITIONS.md has names in its first cell, and their files in its third, each behind its crate or
    behind another file of it. A type of the sources is in a file that takes it from there."""
    missing = []
    for row in re.findall(r"(?m)^\| (`.*) \|$", text_of(ROOT / "docs/DEFINITIONS.md")):
        names, _, places, _ = row.split(" | ")
        crate, defined = "", set()
        for place in names_in(places):
            crate, file = place.split("/") if "/" in place else (crate, place)
            path = ROOT / "crates" / crate / "specs" / f"{file}.antt"
            text = path.read_text() if path.is_file() else ""
            defined |= {*DEFINED.findall(text), *DECLARED.findall(text)}
        missing += [f"{it} in {places}" for it in names_in(names) if it not in defined]
    same("definitions that are elsewhere", missing, [])


def each_promise_is_in_the_sources(_program):
    """Each name of docs/PROVED.md that a call, a clause, a definition or a crate may have is a word of the sources."""
    paths = [*ROOT.glob("crates/*/src/**/*.rt"), *ROOT.glob("crates/*/specs/**/*.antt")]
    sources = [path.read_text() for path in paths]
    words = set(re.findall(NAME, "\n".join([*sources, (ROOT / "crates.txt").read_text()])))
    named = [it for it in names_in(text_of(ROOT / "docs/PROVED.md")) if re.fullmatch(rf"{NAME}(?:::{NAME})*", it)]
    same("names that are nowhere", [it for it in named if not words.issuperset(it.split("::"))], [])


def each_file_is_there(_program):
    """A file that a document names is in the repository, below whatever folder; capitals stand for some name."""
    files = [f"/{path.relative_to(ROOT)}" for path in ROOT.glob("**/*") if "out" not in path.parts]
    named = {it for path in [*ROOT.glob("*.md"), *ROOT.glob("docs/*.md")] for it in names_in(text_of(path))}
    wanted = {it for it in named if FILE.fullmatch(it) and not re.search(r"[A-Z]{2,}(?!\w*\.md)", it)} - ADDED
    same("files that are missing", sorted(it for it in wanted if not any(one.endswith(f"/{it}") for one in files)), [])


CHECKS = [each_definition_is_in_its_file, each_promise_is_in_the_sources, each_file_is_there]
