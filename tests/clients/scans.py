"""Scans that are read over a served program, by `READ?` and by the client's calls, while others work."""
import threading
import time

from swm import ScanError

from support.checking import Failure, same, wait_until
from support.scpi import CONFLICT, NO_ERROR
from support.sessions import session

IGNORED = '-213,"Init ignored"'


STALE = '-230,"Data corrupt or stale"'
THREE = "*RST;:ROUT:SCAN (@1!1,2!1);:TRIG:COUN 3"
BY_BUS = "*RST;:ROUT:SCAN (@1!1);:TRIG:SOUR BUS"
HELD = 300  # milliseconds for which a scan that waits for a trigger is read


def raises(call, wanted):
    """The call raises the scan's error, with these of the queue."""
    try:
        got = call()
    except ScanError as fault:
        same("errors of a scan", fault.errors, wanted)
        return
    raise Failure(f"{got} is answered where there should be {wanted}")


def is_next(readings, before):
    """Whether these come right after those: each reading of the simulated meter is a nanovolt more."""
    return all(round(b - a, 9) == 1e-9 for a, b in zip([before, *readings], readings))


def reads_scans(served):
    with session(served) as mainframe:
        mainframe.write(THREE)
        first = mainframe.read_scan()
        second = mainframe.query_ascii_values("READ?")
        same("three and three", (len(first), len(second), is_next(second, first[-1])), (3, 3, True))
        mainframe.start_scan()
        third = mainframe.fetch_scan()
        same("three more", (len(third), is_next(third, second[-1])), (3, True))
        mainframe.write("TRIG:DEL 0.2;:TRIG:COUN 2")
        same("within its time", is_next(mainframe.read_scan(timeout=None), third[-1]), True)
        same("errors", mainframe.query("*RST;:SYST:ERR?"), NO_ERROR)


def tells_no_old_readings(served):
    """A scan that is refused has none, though those of the one before are kept."""
    with session(served) as mainframe:
        mainframe.write(THREE)
        kept = mainframe.read_scan()
        mainframe.write("ROUT:CLOS (@3!1)")
        raises(mainframe.read_scan, [CONFLICT])
        raises(mainframe.start_scan, [CONFLICT])
        same("kept", mainframe.query_ascii_values("FETC?"), kept)
        mainframe.write("*RST")
        raises(mainframe.read_scan, [CONFLICT])
        same("a scan that runs", mainframe.query(f"{BY_BUS};:INIT;:READ?;:STAT:OPER:COND?;:SYST:ERR?"), f"32;{IGNORED}")
        mainframe.write("*RST")


def read_beside(served, settings, messages):
    """What a session reads, while another sends these messages one after another: its answer, and the errors then."""
    told = []
    with session(served) as mainframe, session(served) as other:
        mainframe.query(f"{settings};*OPC?")
        reading = threading.Thread(target=lambda: told.append(mainframe.line("READ?")[0]))
        reading.start()
        wait_until("a wait for a trigger", lambda: other.query("STAT:OPER:COND?") == "32")
        for message in messages:
            other.query(f"{message};*STB?")
        reading.join()
        return told[0], other.query("*RST;:SYST:ERR:ALL?")


def reads_while_another_triggers(served):
    answer, errors = read_beside(served, BY_BUS, ["*IDN?;:ROUT:CLOS:STAT?", "*TRG"])
    same("one reading", (answer.count(","), answer[:9], errors), (0, "1.0000000", NO_ERROR))


def reads_once_another_gives_its_lock_back(served):
    """The scan is over under the lock, and its readings are answered behind it."""
    told = []
    with session(served) as mainframe, session(served) as other:
        mainframe.query(f"{BY_BUS};*OPC?")
        reading = threading.Thread(target=lambda: told.extend(mainframe.query_ascii_values("READ?")))
        reading.start()
        wait_until("a wait for a trigger", lambda: other.query("STAT:OPER:COND?") == "32")
        with other.lock_context():
            held = other.query_ascii_values("*TRG;*WAI;:FETC?")
            time.sleep(HELD / 1000)
            same("under the lock", told, [])
        reading.join()
        same("behind it", told, held)
        same("errors", other.query("*RST;:SYST:ERR:ALL?"), NO_ERROR)


def reads_nothing_of_a_scan_that_another_ends(served):
    for message in ["ABOR", "*RST"]:
        same(message, read_beside(served, BY_BUS, [message]), (None, STALE))


def reads_nothing_of_the_scan_that_another_began_since(served):
    """Also where it makes as many readings."""
    message = "ABOR;:TRIG:SOUR IMM;:INIT;*WAI"
    same("another scan", read_beside(served, BY_BUS, [message]), (None, STALE))


def fetches_nothing_where_an_error_was_queued(served):
    with session(served) as mainframe, session(served) as other:
        mainframe.write(f"{BY_BUS};COUN 2")
        mainframe.start_scan()
        other.query("*TRG;:TRIG:COUN 3;*STB?")
        other.query("ABOR;*STB?")
        raises(mainframe.fetch_scan, [CONFLICT])
        mainframe.write("*RST;*CLS")


def gives_up_a_scan_that_is_read(served):
    """Its time is over, and the scan runs until it is ended."""
    with session(served) as mainframe:
        mainframe.write(BY_BUS)
        try:
            got = mainframe.read_scan(timeout=HELD)
        except OSError:
            mainframe.clear()
        else:
            raise Failure(f"{got} is answered where nothing was triggered")
        same("it runs", mainframe.query("STAT:OPER:COND?;:ABOR;:STAT:OPER:COND?"), "32;0")
        same("errors", mainframe.query("*RST;:SYST:ERR?"), NO_ERROR)


CHECKS = [
    reads_scans, tells_no_old_readings, reads_while_another_triggers, reads_once_another_gives_its_lock_back,
    reads_nothing_of_a_scan_that_another_ends,
    reads_nothing_of_the_scan_that_another_began_since, fetches_nothing_where_an_error_was_queued,
    gives_up_a_scan_that_is_read,
]
