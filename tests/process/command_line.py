"""The words of the command line, its help, and the words that it refuses."""
from support.checking import Failure, same
from support.process import ANSWERED


def help_is_told(program):
    for words, wanted in [
        (["--help"], [b"run", b"Answer each line of standard input on standard output", b"serve", b"--version"]),
        (["run", "--help"], [b"--fuse <K>", b"Let the K-th closing of slot 1 fail, K from 1 to 1000000", b"--rack <FILE>",
                             b"--program <FILE>"]),
        (["rack", "--help"], [b"<FILE>", b"reach each card; nothing moves"]),
        (["off", "--help"], [b"--rack <FILE>", b"Switch off every relay"]),
        (["serve", "--help"], [b"--port <P>", b"Listen on port P, from 1 to 65535", b"4880",
                               b"--address <ADDRESS>", b"127.0.0.1", b"--until-end-of-input", b"--log"]),
        (["check", "--help"], [b"A listing is scan code as text", b"close S!C", b"ok bound B readings R"]),
    ]:
        done = program.run(words)
        same("status", done.returncode, 0)
        same("standard error", done.stderr, b"")
        for text in wanted:
            if text not in done.stdout:
                raise Failure(f"{' '.join(words)} does not say {text!r}, but {done.stdout!r}")


def version_is_told(program):
    program.check(["--version"], b"", b"mainframe 1.0\n")


def command_lines_are_refused(program):
    for words in [
        [], ["walk"], ["run", "now"], ["run", "--fuse"], ["run", "--fuse", "0"], ["run", "--fuse", "1000001"],
        ["run", "--fuse", "-1"], ["run", "--fuse", "two"], ["run", "--fuse", "4294967296"], ["run", "--loud"],
        ["run", "--fuse", "1", "--fuse", "2"], ["run", "--program"], ["check", "--program", "x"], ["check", "now"],
        ["check", "--fuse", "1"],
        ["serve", "now"], ["serve", "--port"], ["serve", "--port", "0"], ["serve", "--port", "65536"],
        ["serve", "--port", "-1"], ["serve", "--port", "hislip"], ["serve", "--fuse", "1"],
        ["serve", "--address"], ["serve", "--address", "localhost"], ["serve", "--address", "127.0.0.1:80"],
        ["rack"], ["rack", "a", "b"], ["off"], ["off", "--rack"], ["run", "--fuse", "1", "--rack", "a"],
        ["run", "--program", "a", "--rack", "b"],
        ["serve", "--address", "1.2.3"], ["serve", "--log", "1"], ["serve", "--until-end-of-input", "1"],
    ]:
        done = program.run(words, b"*IDN?\n")
        same(f"{words}: status", done.returncode, 2)
        same(f"{words}: output", done.stdout, b"")
        if not done.stderr:
            raise Failure(f"{words}: nothing is said on standard error")


def fuses_are_taken(program):
    for number in ["1", "1000000"]:
        program.answers(b"*IDN?\n", ANSWERED, ["run", "--fuse", number])
    first_fails = b"ROUT:CLOS (@1!1);:SYST:ERR?\n"
    program.answers(first_fails, b'-240,"Hardware error"\n', ["run", "--fuse", "1"])
    program.answers(first_fails, b'0,"No error"\n', ["run", "--fuse", "2"])


CHECKS = [help_is_told, version_is_told, command_lines_are_refused, fuses_are_taken]
