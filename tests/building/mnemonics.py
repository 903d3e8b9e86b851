"""`build/mnemonics`: each mnemonic's numbers in the sources are those of its text; it mends others in a copy."""
import pathlib
import shutil
import subprocess
import tempfile

from support import ROOT
from support.checking import PATIENCE, same

COMMAND, SOURCE = "build/mnemonics", "crates/sw_lex/src/mnemonics.rt"
CLOSE = 'text: b"CLOSe",\n    short: 0x1_43_4C_4F_53,\n    long: 0x1_43_4C_4F_53_45,'
WRONG = CLOSE.replace("53_45", "53_46")
NEW = CLOSE.replace("0x1_43_4C_4F_53_45", "0").replace("0x1_43_4C_4F_53", "0")
BARE = 'text: b"CLOSe",'
LONG = "CLOSE: long: {} in place of 0x1_43_4C_4F_53_45\n"
SHORT = "CLOSE: short: 0 in place of 0x1_43_4C_4F_53\n"


def tells(folder, words, told, status):
    done = subprocess.run([folder / COMMAND, *words], capture_output=True, text=True, timeout=PATIENCE)
    same(f"errors, output and status of {words}", (done.stderr, done.stdout, done.returncode), ("", told, status))


def numbers_of_mnemonics_are_written_from_their_texts(_program):
    tells(ROOT, ["--check"], "", 0)
    source = (ROOT / SOURCE).read_bytes()
    with tempfile.TemporaryDirectory() as name:
        folder = pathlib.Path(name)
        for path in (COMMAND, SOURCE):
            (folder / path).parent.mkdir(parents=True)
            shutil.copy(ROOT / path, folder / path)
        for text, told in [(WRONG, LONG.format("0x1_43_4C_4F_53_46")), (NEW, SHORT + LONG.format("0"))]:
            (folder / SOURCE).write_bytes(source.replace(CLOSE.encode(), text.encode()))
            tells(folder, ["--check"], told, 1)
            tells(folder, [], "", 0)
            same("the file, mended", (folder / SOURCE).read_bytes(), source)
        (folder / SOURCE).write_bytes(source.replace(CLOSE.encode(), BARE.encode()))
        for words in ([], ["--check"]):
            tells(folder, words, "CLOSE: no text with two numbers\n", 1)


CHECKS = [numbers_of_mnemonics_are_written_from_their_texts]
