"""A lock's limit while its holders pour, and pauses of scans that were aborted."""
import contextlib
import threading
import time

from support.checking import PATIENCE, SOON, Failure, same, within
from support.hislip import message
from support.server import Served
from common import beside

LIMIT = 1_000  # milliseconds of a lock that is not to be had
PAUSES = 5_000  # of an hour, begun and aborted by one message
MESSAGES = 40  # of these


def check_limit_runs_out(others):
    """A lock is given up in time, though all who hold one pour triggers, as nobody may beside the steady session."""
    with Served(others.program) as served:
        client, *holders = [served.join() for _ in range(4)]
        for key, released in [(b"", 1), (b"bench", 2)]:
            holding = holders if key else holders[:1]
            for holder in holding:
                same("lock", holder.lock(0, key), 1)
            check_limit(client, holding)
            for holder in holding:
                same("release", holder.release(), released)
        served.check_alive()


def check_limit(client, holding):
    over = threading.Event()
    working = [beside(work_until, over, holder.commands) for holder in holding]
    began = time.monotonic()
    with within(LIMIT / 1_000 + SOON, "a lock's limit"):
        same("lock", client.lock(LIMIT), 0)
    same("the limit was waited for", time.monotonic() >= began + LIMIT / 1_000, True)
    over.set()
    for thread in working:
        thread.join(PATIENCE)


def work_until(over, wire):
    """Sends what changes nothing: a trigger that is ignored, and an abort where no scan runs."""
    with contextlib.suppress(OSError):
        while not over.is_set():
            wire.sendall(message(12) + message(7, 0, 0, b"ABOR\n"))


def check_stale_pauses(others):
    """Pauses of scans that were aborted hold no other up, nor memory, nor the end of the program."""
    with Served(others.program) as served:
        client, other = served.join(), served.join()
        stale = "ROUT:SCAN (@1!1);:TRIG:DEL 3600" + ";:INIT;:ABOR" * PAUSES
        client.write(stale)
        same("the end of the pauses", client.query("*OPC?"), "1")
        resident = served.resident()
        for _ in range(MESSAGES):
            client.write(stale)
        same("the end of more", client.query("*OPC?"), "1")
        if served.resident() > resident + 4_096:
            raise Failure(f"memory grew from {resident} to {served.resident()} kB")
        with within(SOON, "a pause of 10 ms"):
            same("a short pause", other.query("TRIG:DEL 0.01;:INIT;*OPC?"), "1")
        other.write("TRIG:DEL 3600;:INIT")
        other.query("*STB?")
        with within(SOON, "the end of the program"):
            served.process.terminate()
            served.process.wait(PATIENCE)


CHECKS = [("a limit that runs out", check_limit_runs_out), ("stale pauses", check_stale_pauses)]
