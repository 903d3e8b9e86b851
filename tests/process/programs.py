"""Scan programs that stand in a file, for `run --program`."""
import pathlib
import tempfile

SAMPLES = "scan 2\nmeter 4\nclose 1!1\npause 10000\nread\nread\nread\nopen 1!1\nhalt\n"
NOWHERE = (b"it can run nowhere: its loops aren't nested, do nothing or do more than can be counted, or nothing is "
           b"awaited\n")
READINGS = b"1;1.000000000,1.000000001,1.000000002\n"


def check_program(program, listing, typed, told, status=0, fault=b"", more=()):
    """What `run` tells with this listing in a file."""
    with tempfile.TemporaryDirectory() as folder:
        path = pathlib.Path(folder) / "listing"
        path.write_text(listing)
        program.check(["run", "--program", str(path), *more], typed, told, status, fault)


def a_program_in_a_file_is_on(program):
    check_program(program, SAMPLES, b"INIT;*OPC?;:FETC?\n", READINGS)
    of_version_1 = SAMPLES.replace("scan 2", "scan 1")
    check_program(program, of_version_1, b"ROUT:SCAN:PROG:STAT?\nINIT;*OPC?;:FETC?\n", b"1\n" + READINGS)
    check_program(program, SAMPLES, b"*RST;:ROUT:SCAN:PROG?\n", b"#10\n")
    check_program(program, SAMPLES, b"INIT;*OPC?;:SYST:ERR?\n", b'1;-240,"Hardware error"\n', more=["--fuse", "1"])


def a_listing_longer_than_a_message_is_taken(program):
    listing = "scan 2\nmeter 4\n" + "close 1!1&2!1\nread\nopen 1!1&2!1\n" * 2_730 + "halt\n"
    check_program(program, listing, b"DIAG:SCAN:BOUN?\n", b"2730\n")


def files_without_a_program_are_refused(program):
    for listing, fault in [
        ("scan 2\nmeter 4\nclos 1!1\n",
         b"line 3: BadStep\nline 3: `clos` is no step of version 2, whose words are set, wait, timer, pause, close, "
         b"open, read, loop, halt\n"),
        ("scan 2\nmeter 4\nhalt\n", NOWHERE),
        ("scan 2\nmeter 4\nset 0 5\nloop 0 1\nread\nhalt\n", NOWHERE),
        ("scan 2\nmeter 4\nset 0 5\nread\nhalt\n", NOWHERE),
    ]:
        check_program(program, listing, b"*IDN?\n", b"", 3, fault)
    fault = b"mainframe: cannot open the program's file\n"
    program.check(["run", "--program", "/nowhere/listing"], b"*IDN?\n", b"", 1, fault)


CHECKS = [a_program_in_a_file_is_on, a_listing_longer_than_a_message_is_taken, files_without_a_program_are_refused]
