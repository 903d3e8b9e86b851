"""Lists, macros and listings as long as they may be, and less and less memory."""
import resource

from support.checking import Failure, same
from support.process import ANSWERED

OUT_OF_MEMORY = b"mainframe: out of memory\n"
MOST_MEMORY, LEAST_MEMORY = 8_192, 1_024  # kB


def a_list_of_512_entries(program):
    most = b"1!1:1!99," * 5
    for more, told in [(b"1!1:1!17", b'0,"No error"\n'), (b"1!1:1!18", b'-223,"Too much data"\n')]:
        program.answers(b"ROUT:SCAN (@" + most + more + b");:SYST:ERR?\n", told)


def a_body_of_4096_bytes(program):
    most = b"$" * 4_096
    program.answers(b"*DMC 'A',#44096" + most + b"\n*GMC? 'A'\n*DMC 'B',#44097" + b";" * 4_097 + b"\nSYST:ERR:ALL?\n",
                    b"#44096" + most + b'\n-275,"Macro definition too long"\n')


def an_expansion_of_65536_bytes(program):
    defined = b"*EMC 1;*DMC 'A',#44096" + b";" * 4_096 + b";*DMC 'B',#13A;A;*DMC 'C',#13B;B;*DMC 'D',#13C;C\n"
    more = b"*DMC 'E',#13D;D;*DMC 'F',#17D;*IDN?\n"
    program.answers(defined + more + b"F;*OPC?\nE;SYST:ERR:ALL?\n",
                    ANSWERED[:-1] + b';1\n-276,"Macro recursion error"\n')


def memory_is_out(program):
    """With less and less memory the program answers, or drops an answer by -225, or says that there is none, until
    the system can't even load it."""
    typed = b"*IDN?".ljust(60_000) + b"\n"
    answered, dropped, out = (0, ANSWERED, b""), (0, b"", b""), (1, b"", OUT_OF_MEMORY)
    seen = []
    for kilobytes in range(MOST_MEMORY, LEAST_MEMORY, -16):
        outcome = limited(program, typed, kilobytes * 1_024)
        if outcome not in (answered, dropped, out):
            break
        seen.append(outcome)
    if not seen:
        raise Failure(f"with {MOST_MEMORY} kB the program gives {outcome}")
    same("first outcome", seen[0], answered)
    same("last outcome before the program can't be loaded", seen[-1], out)


def limited(program, typed, size):
    """What it writes with this limit on its memory, in bytes, and its status."""
    done = program.run(["run"], typed, preexec_fn=lambda: resource.setrlimit(resource.RLIMIT_AS, (size, size)))
    return done.returncode, done.stdout, done.stderr


CHECKS = [a_list_of_512_entries, a_body_of_4096_bytes, an_expansion_of_65536_bytes, memory_is_out]
