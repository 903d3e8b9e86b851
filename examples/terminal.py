"""A terminal before `mainframe serve`: it sends each line of its input, and prints each answer. Errors that a line
brings about it takes from the queue at once, and prints them on standard error. `help` lists the commands; Ctrl-C gives
up a command that waits, by a device clear; `exit` or Ctrl-D ends. `swm.py` is it as a program.
"""
from __future__ import annotations

import contextlib
import sys
from collections.abc import Iterator

from swm import ERROR_COUNT, PORT, Session, SessionError

HEADERS = ":SYST:HELP:HEAD?"


def exchange(session: Session, line: str) -> tuple[str | None, list[str]]:
    """The answer to a line, and its errors. Where more are queued after the line than before, all are taken."""
    before = int(session.query(ERROR_COUNT))
    answer, after = session.line(line)
    errors = session.errors() if after > before else []
    told = [f"{error}: {line.strip() if number >= before else 'queued before'}" for number, error in enumerate(errors)]
    return answer, told


def carry_out(session: Session, line: str) -> None:
    """Prints the answer to a line, and on standard error its errors."""
    is_help = line.strip() == "help"
    answer, errors = exchange(session, HEADERS if is_help else line)
    if is_help and answer is None:
        errors.append("this mainframe does not list its commands; docs/COMMANDS.md does")
    elif is_help:
        answer = answer[2 + int(answer[1]):].rstrip("\n")  # what a definite block holds
    if answer is not None:
        print(answer, flush=True)
    for error in errors:
        print(error, file=sys.stderr, flush=True)


def typed() -> Iterator[str]:
    """The lines of standard input. A person has a prompt, line editing and a history; Ctrl-C drops a line that
    is not ended."""
    if not (sys.stdin.isatty() and sys.stdout.isatty()):
        yield from sys.stdin
        return
    with contextlib.suppress(ImportError):
        import readline
        readline.parse_and_bind("set enable-bracketed-paste off")  # several lines that are pasted are several
    print("`help` lists the commands, `exit` ends", file=sys.stderr)
    while True:
        try:
            line = input("> ")
        except KeyboardInterrupt:
            print()
        except EOFError:
            print()
            return
        else:
            yield line


def terminal(port: int = PORT, host: str = "127.0.0.1") -> int:
    """Sends the lines of standard input and prints what comes of them; tells the status of the process."""
    for stream in (sys.stdin, sys.stdout):
        stream.reconfigure(errors="surrogateescape")
    try:
        with Session(port, host) as session:
            session.timeout = None
            for line in typed():
                if line.strip() == "exit":
                    break
                try:
                    carry_out(session, line)
                except KeyboardInterrupt:
                    session.clear()
                    print("given up", file=sys.stderr)
    except KeyboardInterrupt:
        return 130
    except SessionError as fault:
        print(f"swm: {fault}", file=sys.stderr)
        return 1
    return 0
