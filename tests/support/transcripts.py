"""The transcripts: pairs of files of what is typed and what comes back, and a table of listings."""
from support import ROOT

FOLDER = ROOT / "tests/transcripts"


def typed():
    """The file of each transcript that is typed, and the words of the command line; a word that names a file beside it
    becomes that file."""
    for path in sorted(FOLDER.glob("*.in")):
        more = path.with_suffix(".args")
        words = more.read_text().split() if more.exists() else []
        yield path, ["run", *(str(FOLDER / word) if (FOLDER / word).is_file() else word for word in words)]


def listings():
    """Each row of the table, and its parts: a listing, what `check` answers, and what it says on standard error."""
    for row in (FOLDER / "listings.txt").read_text().splitlines():
        if row and not row.startswith("#"):
            listing, *told = (part.strip() for part in row.split("|"))
            yield row, [listing.replace("/", "\n"), *told]
