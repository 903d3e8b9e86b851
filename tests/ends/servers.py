"""The end of a server beside scans and a slow meter, and that it looks whether its clients are still there.

Each check takes the program and a number of rounds.
"""
import os
import pathlib
import re
import subprocess
import time

from swm import Session

from support.checking import PATIENCE, Failure, comes, same, tell, wait_until
from support.own_cards import PipedMeter, own_cards
from support.scpi import LONG_SCAN
from support.server import AT_LAST, Served, Supervised

DELAYS = {"no delay": 0, "1 us": 0.000_001, "1 ms": 0.001, "5 ms": 0.005}
READ_BEFORE = 21  # readings that a meter gives before the end is asked for
READING = 0.1  # seconds that it takes for each
KEPT_ALIVE = 2  # a connection's timer that looks whether the client is still there, in /proc/net/tcp
FIRST_LOOK = 10  # seconds


# ---- the end beside a scan


def ends(process):
    """Whether it ends well in time, once its input has ended."""
    process.stdin.close()
    try:
        same("status", process.wait(AT_LAST), 0)
    except subprocess.TimeoutExpired:
        return False
    return True


def end_beside_a_scan(delay):
    def check(program, rounds):
        turns, wrong = max(rounds // 5, 1), 0
        for turn in range(turns):
            with Supervised(program) as served, served.join() as client:
                client.query(f"{LONG_SCAN.format(delay=delay)};*STB?")
                time.sleep(0.05 * (turn % 4))
                wrong += not ends(served.process)
        tell(f"the server did not end within {AT_LAST} s", wrong, turns)
    return check


def end_beside_a_meter(_program, _rounds):
    """Ten readings a second, of which 21 have come: the relays open while the meter is still in its reading, none
    closes any more, and once it has its reading the server ends."""
    with own_cards(PipedMeter) as (server, port, board, meter), Session(port, timeout=PATIENCE * 1_000) as client:
        client.query("ROUT:SCAN (@1!1,1!2);:TRIG:COUN 300;:INIT;*STB?")
        for _ in range(READ_BEFORE):
            time.sleep(READING)
            meter.tell(7)
        wait_until("a closing", lambda: len(closings(board)) > READ_BEFORE)
        server.stdin.close()
        wait_until_open(board)
        end = time.monotonic() + AT_LAST
        while server.poll() is None and time.monotonic() < end:
            meter.tell(7)
            time.sleep(READING)
        same("closings after the end was asked for", len(closings(board)) - READ_BEFORE - 1, 0)
        same("status", server.poll(), 0)


def closings(board):
    return [line for line in board.read_text().splitlines() if " close " in line]


def wait_until_open(board):
    """Each channel that was closed is opened, or its board is off."""
    def holds():
        return all(re.search(r"open|off", line) for line in board.read_text().splitlines()[-1:])
    end = time.monotonic() + AT_LAST
    while not holds():
        if time.monotonic() > end:
            raise Failure(f"a relay is closed {AT_LAST} s after the end was asked for, while the meter reads")
        time.sleep(0.01)


# ---- clients that are gone


def timers(served):
    """Of each connection of the server its timer, and in how many seconds it runs out."""
    found = []
    for line in pathlib.Path("/proc/net/tcp").read_text().splitlines()[1:]:
        words = line.split()
        if words[1].endswith(f":{served.port:04X}") and words[3] == "01":
            kind, due = words[5].split(":")
            found.append((int(kind, 16), int(due, 16) / os.sysconf("SC_CLK_TCK")))
    return found


def clients_are_kept_alive(program, _rounds):
    """The system looks after ten seconds of silence whether a client is still there, on each connection."""
    with Served(program) as served, served.join(), served.connect():
        def holds():
            return [kind == KEPT_ALIVE and due <= FIRST_LOOK for kind, due in timers(served)] == [True] * 3
        if not comes(holds):
            raise Failure(f"the connections have these timers and seconds: {timers(served)}")


def checks():
    """Each check by its name."""
    yield from ((f"end beside a scan, {name}", end_beside_a_scan(delay)) for name, delay in DELAYS.items())
    yield "end beside a meter", end_beside_a_meter
    yield "clients are kept alive", clients_are_kept_alive
