"""An operator's `abort`, beside a scan and under another's lock. Each check takes the program and rounds."""
import time

from support.checking import PATIENCE, same, wait_until_same
from support.scpi import CONFLICT, IDENTITY, LONG_SCAN
from support.server import AT_LAST, Supervised

WAITING = "ROUT:CLOS (@2!1,2!9);SCAN (@1!1);:TRIG:SOUR BUS;:INIT"
IDLE = "(@);0"  # no channel is closed, and no scan runs
LOOK = "ROUT:CLOS:STAT?;:STAT:OPER:COND?"


def abort_beside(text, holds_lock):
    """A check that a line `abort` makes the scan idle and opens every relay, whichever session has the lock; that one
    line says so; and that the server continues with its cards."""
    def check(program, _rounds):
        with Supervised(program) as served, served.join() as client, served.join() as other:
            if holds_lock:
                same("lock", client.lock(0), 1)
            client.query(f"{text};*STB?")
            served.types("*IDN?\nabo")
            time.sleep(0.1)
            same("a scan before it", client.query("ROUT:OPEN:ALL;:SYST:ERR?"), CONFLICT)
            served.types("rt\n")
            wait_until_same("what is closed, and the scan", lambda: client.query(LOOK), IDLE, AT_LAST)
            wait_until_same("lines", lambda: len(served.remarks), 2, AT_LAST)
            same("the line", served.remarks[1], "mainframe: aborted, every relay is open\n")
            check_cards(client)
            if holds_lock:
                same("release", client.release(), 1)
            same("another session", other.query("*IDN?"), IDENTITY)
            served.check_alive()
            same("lines", len(served.remarks), 2)
            served.process.stdin.close()
            same("status", served.process.wait(PATIENCE), 0)
    return check


def check_cards(client):
    """Each card is in its slot, closes its relays and scans."""
    client.write("*CLS;:ROUT:CLOS (@1!3,2!5)")
    same("closed", client.query("ROUT:CLOS:STAT?"), "(@1!3,2!5)")
    scan = "ROUT:OPEN:ALL;:TRIG:SOUR IMM;DEL 0;:ARM:COUN 1;:TRIG:COUN 2;:ROUT:SCAN (@1!1,3!4);:INIT;*OPC?"
    same("a scan", client.query(f"{scan};:TRAC:POIN:ACT?;:SYST:ERR?"), '1;2;0,"No error"')


def checks():
    """Each check by its name."""
    yield "abort", abort_beside(WAITING, False)
    yield "abort under a lock", abort_beside(WAITING, True)
    yield "abort beside a scan", abort_beside(LONG_SCAN.format(delay=0.001), False)
