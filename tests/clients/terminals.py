"""What a person types at a terminal is answered line by line: by `run`, and by the client before `serve`."""
import contextlib
import subprocess
import time

from swm import Kind

from support import EXAMPLES
from support.checking import PATIENCE, same
from support.hislip import send
from support.pseudo_terminal import BACKSPACE, CTRL_C, CTRL_D, CTRL_P, answers_each_line, at_a_terminal
from support.scpi import IDENTITY
from support.scripted import instrument, receive_text
from support.server import Served

A_WHILE = 0.5  # seconds, in which a line that was typed is surely sent
PROMPT = "> "  # of the client


@contextlib.contextmanager
def at_the_client(served):
    """The client's terminal, once it has shown its prompt."""
    with at_a_terminal([EXAMPLES / "swm.py", str(served.port)]) as terminal:
        terminal.shows(PROMPT)
        yield terminal


def run_answers_at_a_terminal(program):
    with at_a_terminal([program, "run"]) as terminal:
        answers_each_line(terminal)


def the_client_answers_at_a_terminal(program):
    with Served(program) as served, at_the_client(served) as terminal:
        answers_each_line(terminal, PROMPT)


def a_command_that_waits_is_given_up(program):
    """Ctrl-C while `*OPC?` waits for the end of a scan gives it up, and the session continues."""
    with Served(program) as served, at_the_client(served) as terminal:
        terminal.types("ROUT:SCAN (@3!4);:TRIG:SOUR BUS;:INIT;:STAT:OPER:COND?\n")
        terminal.shows("\r\n32\r\n")
        terminal.types("*OPC?\n")
        time.sleep(A_WHILE)
        terminal.types(CTRL_C)
        terminal.shows(f"given up\r\n{PROMPT}")
        terminal.types("ABOR;*OPC?\n")
        terminal.shows(f"\r\n1\r\n{PROMPT}")
        terminal.types(CTRL_D)
        same("status", terminal.process.wait(PATIENCE), 0)


def the_client_tells_errors_at_once(program):
    """Behind the answer, each with the line; what it tells has left the queue."""
    with Served(program) as served, at_the_client(served) as terminal:
        for line, told in [
            ("IDN?", ['-113,"Undefined header": IDN?']),
            ("ROUT:CLOS (@1!1:1!5)", ['-221,"Settings conflict": ROUT:CLOS (@1!1:1!5)']),
            ("*OPC?;*ESE 256;*SRE 256", ["1"] + ['-222,"Data out of range": *OPC?;*ESE 256;*SRE 256'] * 2),
            ("*OPC?;:FOO;:SYST:ERR?", ["1", '-113,"Undefined header": *OPC?;:FOO;:SYST:ERR?']),
            ("*ESE 256;:SYST:ERR?", ['-222,"Data out of range"']),
            ("SYST:ERR?", ['0,"No error"']),
        ]:
            terminal.types(f"{line}\n")
            terminal.shows("\r\n".join([line, *told, PROMPT]))


def the_client_leaves_the_errors_of_others(program):
    """A client that only looks takes none from the queue; an error of its own comes behind those of others."""
    with Served(program) as served, at_the_client(served) as terminal, served.join() as other:
        other.write("FOO")
        same("errors", other.query("SYST:ERR:COUN?"), "1")
        terminal.types("*IDN?\n")
        terminal.shows(f"{IDENTITY}\r\n{PROMPT}")
        same("errors", other.query("SYST:ERR:COUN?"), "1")
        terminal.types("ROUT:CLOS (@1601)\n")
        terminal.shows('-113,"Undefined header": queued before\r\n-241,"Hardware missing": ROUT:CLOS (@1601)\r\n')


def a_line_is_edited_and_found_again(program):
    with Served(program) as served, at_the_client(served) as terminal:
        terminal.types(f"*IDX{BACKSPACE}N?\n")
        terminal.shows(f"\r\n{IDENTITY}\r\n{PROMPT}")
        terminal.types(f"{CTRL_P}\n")
        terminal.shows(f"*IDN?\r\n{IDENTITY}\r\n{PROMPT}")
        terminal.types("*RST")
        terminal.shows("*RST")
        time.sleep(A_WHILE)
        terminal.types(CTRL_C)
        terminal.shows(f"\r\n{PROMPT}")
        terminal.types("*OPC?\n")
        terminal.shows(f"*OPC?\r\n1\r\n{PROMPT}")
        terminal.types("  exit \n")
        same("status", terminal.process.wait(PATIENCE), 0)


def typed_into_the_client(port, text):
    """What the client says on both outputs to what comes by a pipe."""
    done = subprocess.run([EXAMPLES / "swm.py", str(port)], input=text, capture_output=True, timeout=PATIENCE)
    same("status", done.returncode, 0)
    return done.stdout, done.stderr


def a_pipe_has_no_prompt(program):
    """Each line as it is, bytes that are no text too; `exit` ends."""
    with Served(program) as served:
        same("said", typed_into_the_client(served.port, b"*IDN?\nIDN?\n\n\xff\nexit\n*IDN?\n"),
             (f"{IDENTITY}\n".encode(), b'-113,"Undefined header": IDN?\n-101,"Invalid character": \\udcff\n'))
        same("said", typed_into_the_client(served.port, b"*OPC?"), (b"1\n", b""))


def help_lists_what_the_mainframe_tells(_):
    listed = "#232*IDN?/qonly/\n:ABORt/nquery/\n"
    for told, shown in [
        ([("COUN", "0"), ("HELP", listed), ("COUN", "0")], (b"*IDN?/qonly/\n:ABORt/nquery/\n", b"")),
        ([("COUN", "0"), ("HELP", None), ("COUN", "1"), ("ALL", '-113,"Undefined header"')],
         (b"", b'-113,"Undefined header": :SYST:HELP:HEAD?\n'
               b"this mainframe does not list its commands; docs/COMMANDS.md does\n")),
    ]:
        def script(commands, _, told=told):
            for word, answer in told:
                text, identifier = receive_text(commands)
                same(text, word in text, True)
                if answer is not None:
                    send(commands, Kind.DataEnd, 0, identifier, f"{answer}\n".encode())

        with instrument(script) as port:
            same("said", typed_into_the_client(port, b"help\n"), shown)


def other_words_are_told_the_use(_):
    for words in [["--help"], ["-1"], ["4880", "127.0.0.1", "more"]]:
        done = subprocess.run([EXAMPLES / "swm.py", *words], capture_output=True, timeout=PATIENCE)
        same("said", (done.returncode, done.stdout, done.stderr), (1, b"", b"use: swm.py [PORT [HOST]]\n"))


CHECKS = [
    run_answers_at_a_terminal, the_client_answers_at_a_terminal, a_command_that_waits_is_given_up,
    the_client_tells_errors_at_once, the_client_leaves_the_errors_of_others, a_line_is_edited_and_found_again,
    a_pipe_has_no_prompt, help_lists_what_the_mainframe_tells, other_words_are_told_the_use,
]
