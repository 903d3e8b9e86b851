"""`make install`: what it copies where, that it runs there, and that `man` shows its page; `make help`: a line for each
command."""
import os
import pathlib
import re
import shutil
import signal
import subprocess
import sys

from support.checking import PATIENCE, same
from support.scpi import IDENTITY
from support.server import free_port
from repository import begins, in_a_repository

FILES = ["bin/mainframe", "lib/mainframe/service", "lib/mainframe/swm.py", "lib/mainframe/terminal.py",
         "lib/systemd/system/mainframe.service", "share/man/man1/mainframe.1"]
SECTIONS = ["NAME", "SYNOPSIS", "DESCRIPTION", "A message", "Commands", "Macros", "SEE ALSO"]


def installed(repository, prefix):
    """The folder that is taken for the root, with what is installed below the prefix."""
    image = repository.root / "image"
    done = repository.make("install", f"DESTDIR={image}", f"PREFIX={prefix}")
    same("status, output and standard error", (done.returncode, done.stdout, done.stderr), (0, "", ""))
    found = [file for file in image.glob("**/*") if file.is_file()]
    same("files", sorted(str(file.relative_to(image)) for file in found), [f"{prefix[1:]}/{name}" for name in FILES])
    return image


@in_a_repository
def nothing_is_installed_that_is_not_proved(repository):
    image = repository.root / "image"
    done = repository.make("install", f"DESTDIR={image}")
    begins(done.stderr, "no proved program of these sources is here: `make prove` makes it")
    same("status", done.returncode, 2)
    same("whether something is installed", image.exists(), False)


@in_a_repository
def the_unit_that_is_installed_runs(repository):
    """Its command serves, the client that is installed is answered, and SIGTERM ends it."""
    repository.prove()
    image, port = installed(repository, "/opt/rack"), free_port()
    unit = (image / "opt/rack/lib/systemd/system/mainframe.service").read_text()
    service, program, *words = re.search(r"^ExecStart=(.*)$", unit, re.M)[1].split()
    same("command", [service, program], ["/opt/rack/lib/mainframe/service", "/opt/rack/bin/mainframe"])
    words = [f"{image}{service}", f"{image}{program}", *words, "--port", str(port)]
    with subprocess.Popen(words, stdin=subprocess.DEVNULL, stderr=subprocess.PIPE, text=True) as process:
        same("what it says", process.stderr.readline(), f"mainframe: listening on 127.0.0.1:{port}\n")
        client = [sys.executable, "-B", image / "opt/rack/lib/mainframe/swm.py", str(port)]
        done = subprocess.run(client, input="*IDN?\n", capture_output=True, text=True, timeout=PATIENCE)
        same("answer", done.stdout, f"{IDENTITY}\n")
        process.send_signal(signal.SIGTERM)
        same("status", process.wait(PATIENCE), 0)


@in_a_repository
def what_is_installed_may_be_replaced(repository):
    repository.prove()
    for _ in range(2):
        image = installed(repository, "/usr/local")
    same("the program", (image / "usr/local/bin/mainframe").read_bytes(),
         (repository.root / "crates/mainframe/out/mainframe").read_bytes())
    same("modes", [f"{(image / 'usr/local' / name).stat().st_mode & 0o777:o}" for name in FILES],
         ["755", "755", "755", "644", "644", "644"])


@in_a_repository
def the_manual_page_has_each_command_and_session(repository):
    """As `man` shows it, without a warning, on lines so wide that none is broken."""
    repository.prove()
    page = installed(repository, "/usr/local") / "usr/local/share/man/man1/mainframe.1"
    if not shutil.which("man"):
        print("man is not installed: the manual page was not shown")
        return
    done = subprocess.run(["man", "--warnings", "-E", "ascii", "-l", page], capture_output=True, text=True,
                          timeout=PATIENCE, env={**os.environ, "MANWIDTH": "4000", "MAN_KEEP_FORMATTING": ""})
    same("status and warnings", (done.returncode, done.stderr), (0, ""))
    shown = [line.strip() for line in done.stdout.splitlines()]
    same("the first line of each part", [it for it in SECTIONS if it not in shown], [])
    text = (repository.root / "docs/COMMANDS.md").read_text()
    heads = [re.sub(r"[`|].*", "", it[1]) for it in re.finditer(r"^\| `([A-Z*].*)", text, re.M)]
    blocks = [it[1].strip() for it in re.finditer(r"^    (.*)", text, re.M)]
    same("commands that are missing", [it for it in heads if not any(line.startswith(it) for line in shown)], [])
    same("lines that are missing", [it for it in blocks if it not in shown], [])


@in_a_repository
def make_alone_lists_its_commands(repository):
    text = pathlib.Path(repository.root, "Makefile").read_text()
    wanted = re.search(r"^\.PHONY: (.*)$", text, re.M)[1].split()
    for words in ([], ["help"]):
        done = repository.make(*words)
        same("commands", sorted(re.findall(r"^make ([\w-]+)", done.stdout, re.M)), sorted(wanted))
        same("standard error", done.stderr, "")


CHECKS = [
    nothing_is_installed_that_is_not_proved, the_unit_that_is_installed_runs, what_is_installed_may_be_replaced,
    the_manual_page_has_each_command_and_session, make_alone_lists_its_commands,
]
