"""The client's calls for commands, queries and their answers; for triggers, device clears, status and requests."""
import time

from support.checking import PATIENCE, Failure, same, wait_until
from support.scpi import CONFLICT, IDENTITY, NO_ERROR
from support.sessions import refuses, session

WAITING = "*RST;:ROUT:SCAN (@1!1);:TRIG:SOUR BUS;:INIT"


# ---- commands and answers


def asks_and_reads(served):
    with session(served) as mainframe:
        same("bytes", mainframe.write("*IDN?"), 6)
        same("identity", mainframe.read(), IDENTITY)
        same("bytes of an answer", (mainframe.write("*OPC?"), mainframe.read_raw()), (6, b"1\n"))
        same("a query", mainframe.query("ROUT:CLOS (@2!7);CLOS? (@2!7,2!8)"), "1,0")
        same("without a line feed", (mainframe.write("*IDN?", termination=""), mainframe.read()), (5, IDENTITY))
        same("errors", mainframe.query("*RST;:SYST:ERR?"), NO_ERROR)


def asks_for_values(served):
    with session(served) as mainframe:
        mainframe.write("*RST;:ROUT:SCAN (@3!2,2!5);:TRIG:COUN 4")
        readings = mainframe.query_ascii_values("READ?")
        same("readings", len(readings), 4)
        same("steps", [round(b - a, 9) for a, b in zip(readings, readings[1:])], [1e-9] * 3)
        same("whole numbers", mainframe.query_ascii_values("ROUT:CLOS? (@2!5,3!2)", converter=int), [0, 0])
        same("a separator", mainframe.query_ascii_values("*ESE 3;*ESE?;*SRE?", int, ";"), [3, 0])
        mainframe.write("*RST;*ESE 0")


def writes_blocks(served):
    with session(served) as mainframe:
        mainframe.write_binary_values('*DMC "BOTH",', b"*IDN?;*OPC?")
        same("the block", mainframe.query('*GMC? "BOTH"'), "#211*IDN?;*OPC?")
        same("its expansion", mainframe.query("*EMC 1;BOTH"), f"{IDENTITY};1")
        same("bytes of a block", mainframe.write_binary_values("", [1, 258], datatype="H"), 8)
        same("an error", mainframe.query("SYST:ERR?")[:5], "-102,")
        same("the longest body", mainframe.write_binary_values('*DMC "LONG",', b";" * 4_096), 12 + 6 + 4_096 + 1)
        same("errors", mainframe.query("SYST:ERR?"), NO_ERROR)


def splits_long_messages(served):
    """A message as long as any goes in two parts; a longer one, and a long answer in several."""
    with session(served) as mainframe:
        same("bytes", mainframe.write("*IDN?".ljust(65_536)), 65_537)
        same("the longest message", mainframe.read(), IDENTITY)
        mainframe.write("*IDN?".ljust(200_000))
        same("a longer one", mainframe.query("SYST:ERR?"), '-363,"Input buffer overrun"')
        mainframe.write("*RST;:ROUT:SCAN (@1!7);:TRAC:POIN 20000;:TRIG:COUN 20000")
        same("many readings", len(mainframe.query_ascii_values("READ?")), 20_000)
        mainframe.write("*RST")


def drops_interrupted_answers(served):
    """After answers that nobody read a query gives its own."""
    with session(served) as mainframe:
        mainframe.write("*CLS;*IDN?")
        mainframe.write("SYST:VERS?")
        same("the answer to the last query", mainframe.query("*OPC?"), "1")
        same("the next", mainframe.query("*IDN?"), IDENTITY)
        errors = mainframe.query("SYST:ERR?;ERR?").split(";")
        same("errors", errors, ['-410,"Query INTERRUPTED"'] * 2)
        wait_until("two interruptions", lambda: mainframe.read_stb() >= 0 and len(mainframe.interruptions) == 2)
        same("interruptions", mainframe.interruptions, [0xFFFF_FF02, 0xFFFF_FF04])


def keeps_time(served):
    """Where no answer comes in time, the session continues; a late answer is not the next one's."""
    with session(served) as mainframe:
        mainframe.write("*CLS")
        mainframe.timeout = 200
        began = time.monotonic()
        refuses(mainframe.read, "nothing came in time", "an answer to *CLS")
        if not 0.15 < time.monotonic() - began < 10:
            raise Failure("200 ms are not kept")
        mainframe.timeout = PATIENCE * 1_000
        same("after it", mainframe.query("*IDN?"), IDENTITY)
        mainframe.write(WAITING)
        mainframe.timeout = 100
        mainframe.write("*OPC?")
        refuses(mainframe.read, "an answer to *OPC?")
        mainframe.timeout = None
        with session(served) as other:
            other.write("ABOR")
            same("the late answer", mainframe.read(), "1")


def talks_in_lines(served):
    with session(served) as mainframe:
        text = ["*RST;*CLS\n", "*IDN?\n", "\n", "ROUT:CLOS (@1!9);CLOS? (@1!9);*OPC?\n", "ROUT:CLOS:STAT?\n",
                "ROUT:OPEN:ALL\n", "FOO?;*IDN?\n", "SYST:ERR?\n", "SYST:ERR?"]
        told = [IDENTITY, "1;1", "(@1!9)", '-113,"Undefined header"', NO_ERROR]
        same("answers", list(mainframe.lines(text)), told)
        same("after them", mainframe.query("SYST:ERR?"), NO_ERROR)


def tells_of_errors(served):
    """A line's answer, and the count of errors after it; then the errors, which leave the queue."""
    with session(served) as mainframe:
        same("no line", (mainframe.line("*CLS"), mainframe.errors()), ((None, 0), []))
        same("a line", mainframe.line("*IDN?;FOO\n"), (IDENTITY, 1))
        same("another", mainframe.line("ROUT:CLOS (@1!1,3!1)"), (None, 2))
        same("errors", mainframe.errors(), ['-113,"Undefined header"', CONFLICT])
        same("after them", mainframe.line("SYST:ERR?"), (NO_ERROR, 0))


def triggers(served):
    with session(served) as mainframe:
        mainframe.write(WAITING)
        same("waits", mainframe.query("STAT:OPER:COND?"), "32")
        mainframe.trigger()
        same("has read", mainframe.query("*OPC?;:TRAC:POIN:ACT?"), "1;1")
        mainframe.assert_trigger()
        same("in vain", mainframe.query("SYST:ERR?"), '-211,"Trigger ignored"')
        mainframe.write("*RST")


def clears(served):
    """A command that waits for the end of a scan is given up, and what was on its way is dropped."""
    with session(served) as mainframe:
        mainframe.write(WAITING)
        mainframe.write("*OPC?;*IDN?")
        same("status", mainframe.read_stb() & 16, 0)
        mainframe.clear()
        same("identifiers", mainframe.identifier, 0xFFFF_FF00)
        same("after it", mainframe.query("ABOR;*IDN?"), IDENTITY)
        mainframe.write("*IDN?")
        mainframe.clear()
        same("after an answer", mainframe.query("*OPC?"), "1")
        mainframe.write("*RST;*CLS")


# ---- status and service requests


def tells_of_service_requests(served):
    """Of a refused command, once to each session; between the answers of the second connection they are kept apart."""
    with session(served) as mainframe, session(served) as other:
        same("before", mainframe.query("*RST;*CLS;*SRE 4;*SRE?"), "4")
        mainframe.write("ROUT:CLOS (@1!1,3!1)")
        same("the request", mainframe.wait_for_srq(PATIENCE * 1_000), 68)
        same("the other's", other.wait_for_srq(None), 68)
        same("status", (mainframe.read_stb(), mainframe.read_stb()), (68, 4))
        same("the error", mainframe.query("SYST:ERR?"), CONFLICT)
        refuses(lambda: mainframe.wait_for_srq(150), "nothing came in time", "AsyncServiceRequest")
        mainframe.write("FOO")
        mainframe.query("*OPC?")
        same("a lock beside it", (other.lock_excl(), other.unlock()), (None, None))
        same("kept apart", (other.read_stb() & 4, len(other.requests)), (4, 1))
        same("waited for", (other.wait_for_srq() & 68, other.requests), (68, []))
        mainframe.write("*SRE 0;*CLS")
        same("no error is left", mainframe.query("SYST:ERR:COUN?"), "0")


CHECKS = [
    asks_and_reads, asks_for_values, writes_blocks, splits_long_messages, drops_interrupted_answers, keeps_time,
    talks_in_lines, tells_of_errors, triggers, clears, tells_of_service_requests,
]
