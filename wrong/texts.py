"""The texts of a crate as the prover may see them: items with names, functions with bodies, and what `use` lines bring.

Comments and layout don't count, but within a literal each sign does. Of a function that another calls, the head and
the contract are seen; of a lemma its statement; of a definition, type, trait, constant or trait's impl all, but that a
crate above doesn't see the private fields, the view and the invariant of a type with a model.
"""
import re

WORD = re.compile(r"[^\W\d](?:[\w']|-(?=[^\W\d]))*")
USE = re.compile(r"(?m)^\s*(?:ghost |pub(?:\(\w+\))? )*use ([^;{\n]*)(?:\{([^}]*)\})?")
HEAD = re.compile(r"( *)(pub )?(?:pub\(\w+\) )?(?:const |unsafe |ghost )*fn (\w+)")
CLAUSE = re.compile(r"\s*(ensures|requires|decreases|where)\b")
DECLARED = re.compile(r"(pub )?(?:pub\(\w+\) )?(struct|enum|trait|type|const|static) (?:mut )?(\w+)")
IMPLEMENTED = re.compile(r"impl\b(?:<.*?>(?= ))?(?: ([\w:]+)(?:<.*>)? for)? &?(\w+)")
KINDS = r"(?:abbrev|pub|record|data|private|opaque|unfoldable)"
DEFINED = re.compile(rf"(?:{KINDS} )*([^\W\d][\w'-]*)")
BEGINS = re.compile(rf"{KINDS}\b|[^\W\d][\w'-]* :")
# What a definition begins with, where it isn't a lemma, whose proof doesn't count.
WHOLE = re.compile(r"(?:pub |private )*(abbrev|record|data|unfoldable)\b")
SOURCE = re.compile(r"""//[^\n]*|/\*.*?\*/|r(#*)".*?"\1|"(?:\\.|[^"\\])*"|'(?:\\[^'\n]+|\\'|[^'\\\n])'""", re.S)
DEFINITIONS = re.compile(r'(?:(?<=\s)|^)--[^\n]*|"(?:\\.|[^"\\\n])*"', re.M)


def words_of(text):
    return set(WORD.findall(text))


def plain(file, text):
    """The text without comments, as long as before: a space in a literal is another sign than one between words."""
    def kept(found):
        it = found[0]
        if it.startswith(("//", "/*", "--")):
            return re.sub(r"[^\n]", " ", it)
        return it.replace(" ", "\x01").replace("\n", "\x02")

    return (SOURCE if file.endswith(".rt") else DEFINITIONS).sub(kept, text)


class Item:
    """What may be seen of a file: its names and its text; of a method or an impl of a trait also whose it is.

    `has_code` is of what calls functions itself: a constant, a trait, and the texts that a look starts from.
    """

    def __init__(self, file, names, text, owner=None, kind="", is_public=True, has_code=False):
        self.file, self.names, self.text, self.owner, self.kind = file, names, " ".join(text.split()), owner, kind
        self.crate, self.words, self.is_public, self.has_code = file.split("/")[0], words_of(text), is_public, has_code
        self.is_own, self.blanket = False, set()


class Use:
    """What one name of a `use` line brings: by which word or signs a text has it, and its path."""

    def __init__(self, word, path, told):
        self.word, self.path, self.told = word, [it for it in path if it != "*"], " ".join(told.split())
        self.signs = self.told.split(" ")[-1].split("◌")

    def is_in(self, item):
        return self.word in item.words or self.word == "*" if self.word else all(it in item.text for it in self.signs)


def uses_of(text):
    """What a text takes from elsewhere, one for each name."""
    for path, names in USE.findall(text):
        base = re.findall(r"[\w'+*-]+", path.partition(" as ")[0])
        if not names.strip():
            renamed = re.findall(r"[\w'-]+", path.partition(" as ")[2])
            yield Use((renamed or base or [""])[-1], base, path)
            continue
        for name in filter(None, map(str.strip, names.split(","))):
            taken = [] if "◌" in name else re.findall(r"[\w'*-]+", re.sub(r"\bas\b", " ", name))
            below = [it for it in taken[:1] if it != "self"]
            yield Use((base if taken == ["self"] else taken or [""])[-1], [*base, *below], f"{path} {name}")


def blocks_of(text):
    """The pieces of a text that each begin at the margin, with the attributes before them."""
    blocks, begun = [], []
    for line in filter(None, map(str.rstrip, text.split("\n"))):
        is_head = not line[0].isspace() and not line.startswith(("}", ")", "where", "{"))
        if is_head and begun and not all(it.startswith("#") for it in begun):
            blocks.append(begun)
            begun = []
        begun.append(line)
    return [*blocks, begun] if begun else blocks


def ends_of(lines, at):
    """Of the function whose head begins at this line: the line at which its body begins, and that behind it."""
    indent, is_clause = HEAD.match(lines[at])[1], False
    for body in range(at, len(lines)):
        line = lines[body]
        is_clause = is_clause or CLAUSE.match(line)
        if line in (f"{indent}{{", f"{indent}{{}}") or not is_clause and line.endswith((" {", " {}")):
            break
        if body > at and line and not line.startswith((f"{indent} ", f"{indent})", f"{indent}where", f"{indent}>")):
            return body, body
    else:
        return len(lines), len(lines)
    if line.endswith("{}"):
        return body + 1, body + 1
    behind = (it + 1 for it in range(body + 1, len(lines)) if lines[it] == f"{indent}}}")
    return body + 1, next(behind, len(lines))


def functions_of(lines):
    """The functions of a block, each as whether it is public, its name, its head and contract; and what else it has."""
    at, found, rest = 0, [], []
    while at < len(lines):
        head = HEAD.match(lines[at])
        if head:
            body, behind = ends_of(lines, at)
            found.append((head[2] is not None, head[3], "\n".join(lines[at:body])))
            at = behind
        else:
            rest.append(lines[at])
            at += 1
    return found, "\n".join(rest)


class Function:
    """A function of a source with its attributes and its body: what it is an item of, and where it stands."""

    def __init__(self, name, top, text, start, end):
        self.name, self.top, self.text, self.start, self.end = name, top, f"{top}\n{text}", start, end
        self.cycles = set(re.findall(r"#\[cycle\((\w+)\)\]", text))


def bodies_of(text):
    """The functions of a source, given without comments."""
    lines, starts = [it.rstrip() for it in text.split("\n")], [0]
    for line in text.split("\n"):
        starts.append(starts[-1] + len(line) + 1)
    found, at, top = [], 0, []
    while at < len(lines):
        line = lines[at]
        head = HEAD.match(line)
        if head:
            first, (_, behind) = at, ends_of(lines, at)
            while first and (not lines[first - 1] or lines[first - 1].lstrip().startswith("#[")):
                first -= 1
            owner = "\n".join(top) if head[1] else ""
            whole = "\n".join(lines[first:behind])
            found.append(Function(head[3], owner, whole, starts[first], starts[behind]))
        elif line.startswith("}"):
            top = []
        elif line and (not line[0].isspace() or top and not top[-1].endswith("{")):
            top = [*top, line] if line.startswith((" ", "where", "{", ")", ">")) else [line]
        at = max(behind, at + 1) if head else at + 1
    return found


def without_fields(text):
    """The text of a source without what the model of a type hides."""
    text = re.sub(r"(?m)^    ghost (?:view|invariant) = (?:.*\n)*?.*};$", "", text)
    for name in re.findall(r"(?m)^impl\b.*\bModel for (\w+)", text):
        declared = re.search(rf"(?m)^(?:pub )?struct {name}\b.*{{\n((?:.*\n)*?)}}", text)
        if declared:
            told = "\n".join(it for it in declared[1].split("\n") if it.startswith("    pub "))
            text = text[: declared.start(1)] + told + "\n" + text[declared.end(1) :]
    return text


def of_impl(file, head, block):
    """The items of an impl: one of a trait, with the heads and contracts of its functions; else each method."""
    implemented = IMPLEMENTED.match(head)
    functions, rest = functions_of(block)
    if re.search(r" for (?!<)", head.partition(" where ")[0]):
        item = Item(file, words_of(head), "\n".join([rest, *(told for _, _, told in functions)]), kind="trait")
        if implemented and implemented[1]:
            is_blanket, trait = len(implemented[2]) == 1, implemented[1].split("::")[-1]
            item.names = {trait} if is_blanket else {implemented[2]}
            # Of every type: seen with its trait or by a call.
            item.blanket = {name for _, name, _ in functions} if is_blanket else set()
        return [item]
    owner = implemented[2] if implemented else head.split()[-1]
    return [Item(file, {name}, f"{head}\n{told}", owner, "method", is_public) for is_public, name, told in functions]


def source_items(file, text, is_own):
    """The items of a source without comments, as the crate itself sees them or as one above."""
    text = re.sub(r"(?m)^\s*#!?\[(?:tactic|inline|cycle).*\]\s*\n", "", text)
    text = re.sub(r"(?m)^\s*(?:ghost |pub(?:\(\w+\))? )*use [^;]*;\s*\n", "", text)
    items = []
    for block in blocks_of(text if is_own else without_fields(text)):
        told = [it for it in block if not it.startswith("#")]
        ends = next((at for at, it in enumerate(told) if it.endswith("{")), 0)
        head = re.sub(r"\s+", " ", " ".join(told[: ends + 1]))
        declared = DECLARED.match(head)
        if declared:
            public, kind, name = declared.groups()
            has_code = kind in ("trait", "const", "static")
            items.append(Item(file, {name}, "\n".join(block), None, "type", public is not None, has_code))
        elif re.match(r"(unsafe )?impl\b", head):
            items += of_impl(file, head, block)
        else:
            functions, rest = functions_of(block)
            items += [Item(file, {name}, told, None, "function", is_public) for is_public, name, told in functions]
            if not functions and not re.match(r"(pub(\(\w+\))? )?mod \w+;|#!", rest.strip()):
                items.append(Item(file, words_of(rest), rest, has_code=True))
    for item in items:
        item.is_own = is_own
    return items


def pieces_of(text, top=""):
    """The definitions and lemmas of a text: the name, the statement and the equations of each, in modules too."""
    pieces = []
    for block in blocks_of(text):
        name = DEFINED.match(block[0])
        if re.match(r"module ", block[0]):
            inner = "\n".join(re.sub("^  ", "", it) for it in block[1:])
            pieces += pieces_of(inner, f"{top}{block[0]}\n")
        elif re.match(r"(pub )?(use|mod) ", block[0]):
            continue
        elif name and (BEGINS.match(block[0]) or not pieces):
            pieces.append((name[1], [top, *block], []))
        elif pieces:
            pieces[-1][2].extend(block)
    return pieces


def definition_items(file, text, is_own):
    """The items of a file of definitions or lemmas, without comments: of a lemma the statement, of a definition all."""
    is_proofs, items = file.split("/")[1] == "proofs", []
    for name, block, equations in pieces_of(text):
        is_lemma = is_proofs and not WHOLE.match(block[1])
        inner = {it[1] for it in (re.match(r"\s+(?:pub )?([^\W\d][\w'-]*) :", line) for line in block[1:]) if it}
        item = Item(file, {name, *inner}, "\n".join(block if is_lemma else block + equations))
        item.is_own = is_own
        items.append(item)
    return items
