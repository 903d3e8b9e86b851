"""What is typed at its limits, answers while the input is open, and input and output that fail."""
import os

from support.checking import PATIENCE, same
from support.process import ANSWERED

INPUT_FAILED = b"mainframe: input failed\n"
OUTPUT_FAILED = b"mainframe: output failed\n"

# ---- input


def input_is_empty(program):
    program.answers(b"", b"")


def input_ends_in_mid_line(program):
    program.answers(b"*IDN?\n*IDN?", ANSWERED * 2)
    program.answers(b"*IDN?\nROUT:CLOS (@1!1", ANSWERED)


def input_fails(program):
    folder = os.open("/", os.O_RDONLY)
    try:
        for word in ["run", "check"]:
            program.check([word], b"", b"", 1, INPUT_FAILED, stdin=folder)
    finally:
        os.close(folder)


def many_short_lines(program):
    program.answers(b"*OPC?\n" * 65_537, b"1\n" * 65_537)


def empty_lines(program):
    program.answers(b"\n" * 65_537 + b"*IDN?\n", ANSWERED)


def a_line_over_a_thousand_writes(program):
    with program.started() as process:
        line = b"*IDN?" + b" " * 995 + b"\n"
        for i in range(len(line)):
            process.stdin.write(line[i:i + 1])
        same("answer", process.stdout.readline(), ANSWERED)
        check_end(process)


def the_longest_line(program):
    for end in [b"", b"\n"]:
        program.answers(b"*IDN?".ljust(65_536) + end, ANSWERED)
        program.answers(b"*IDN?".ljust(65_537) + end, b"")
        program.answers(b"*IDN?".ljust(65_538) + end, b"")


def a_line_longer_than_any_message(program):
    told = b'-363,"Input buffer overrun";0,"No error"\n'
    for length in [65_537, 65_538, 65_539, 100_000, 1_000_000]:
        program.answers(b"*IDN?;".ljust(length, b";") + b"\nSYST:ERR?;ERR?\n", told)


def bytes_that_stand_in_no_message(program):
    program.answers(b"*IDN?\xff\n\x00*IDN?\n*IDN?\x00;\x01\n\xc3\xa4\nROUT:CLOS (@1!1\n\n;;\n*IDN?", ANSWERED * 3)


# ---- answers


def check_end(process):
    """At the end of its input it ends well, and says nothing more."""
    rest, fault = process.communicate(timeout=PATIENCE)
    same("output after the input's end", rest, b"")
    same("standard error", fault, b"")
    same("status", process.returncode, 0)


def answers_come_while_the_input_is_open(program):
    with program.started() as process:
        for line, told in [
            (b"*IDN?\n", ANSWERED),
            (b"ROUT:CLOS (@1!1)\nROUT:CLOS? (@1!1)\n", b"1\n"),
            (b"ROUT:SCAN (@1!2);:INIT\nFETC?\n", None),
            (b"*CLS;*OPC?\n", b"1\n"),
        ]:
            process.stdin.write(line)
            if told is not None:
                same("answer", process.stdout.readline(), told)
        check_end(process)


def output_is_closed(program):
    reader, writer = os.pipe()
    os.close(reader)
    try:
        for word in ["run", "check"]:
            program.check([word], b"*IDN?\n", b"", 1, OUTPUT_FAILED, stdout=writer, restore_signals=False)
    finally:
        os.close(writer)


def output_is_full(program):
    with open("/dev/full", "wb") as full:
        program.check(["run"], b"*IDN?\n*IDN?\n", b"", 1, OUTPUT_FAILED, stdout=full)
        program.check(["run"], b"ROUT:CLOS (@1!1)\n", b"", 0, b"", stdout=full)


CHECKS = [
    input_is_empty, input_ends_in_mid_line, input_fails, many_short_lines, empty_lines, a_line_over_a_thousand_writes,
    the_longest_line, a_line_longer_than_any_message, bytes_that_stand_in_no_message,
    answers_come_while_the_input_is_open, output_is_closed, output_is_full,
]
