"""Connections that stand without a session: how many may, for how long, and what becomes of more."""
import contextlib
import select
import threading
import time

from swm import HEADER

from support.checking import SOON, Failure, same, wait_until
from support.hislip import BEGIN, CLOSED, LARGEST, receive

MOST = 64  # connections that stand without a session; one more is closed at once
# Seconds after its beginning between which a connection is closed, the limit and what a slow machine adds:
HEADER_TIME = (9.5, 20)  # where its first header isn't whole
PAIR_TIME = (59.5, 70)  # where its session doesn't have both connections
WRITE_TIME = (9.5, 80)  # where it does not read until then: ten seconds after answers found no room


class Standing:
    """A connection on which this was sent, what came back, and for how many seconds it stood until it was closed."""

    def __init__(self, served, sent=b""):
        self.began = time.monotonic()
        self.sent = sent
        self.wire = served.connect()
        self.came = b""
        self.stood = None
        with contextlib.suppress(*CLOSED):
            self.wire.sendall(sent)

    def __str__(self):
        stood = "stands" if self.stood is None else f"stood {self.stood:.1f} s"
        return f"one that sent {self.sent!r} {stood}"

    def age(self):
        """For how many seconds it has stood."""
        return time.monotonic() - self.began

    def look(self):
        """Takes what came."""
        try:
            part = self.wire.recv(LARGEST)
        except CLOSED:
            part = b""
        self.came += part
        if not part:
            self.stood = self.age()
            self.wire.close()


def watch(connections, seconds):
    """Looks at connections for this many seconds, or until the instrument has closed them all."""
    end = time.monotonic() + seconds
    standing = {one.wire: one for one in connections if one.stood is None}
    while standing and time.monotonic() < end:
        for wire in select.select(list(standing), [], [], 0.1)[0]:
            standing[wire].look()
            if standing[wire].stood is not None:
                del standing[wire]


def check_stood(connections, times):
    """The instrument closes each of them when it has stood for so long."""
    least, most = times
    watch(connections, most)
    wrong = [one for one in connections if one.stood is None or not least <= one.stood <= most]
    if wrong:
        raise Failure(f"connections stood not {least} to {most} s: {', '.join(map(str, wrong))}")


def trickle(wire, stream, seconds):
    """Sends a byte at this interval in seconds, by a thread, until the connection ends."""
    def send_each():
        with contextlib.suppress(OSError):
            for byte in stream:
                wire.sendall(bytes([byte]))
                time.sleep(seconds)
    threading.Thread(target=send_each, daemon=True).start()


def half_a_session(served):
    """A first connection whose Initialize was answered, and the number of its session."""
    one = Standing(served, BEGIN)
    kind, _, parameter, _ = receive(one.wire)
    same("kind", kind, 1)
    return one, parameter & 0xFFFF


def fill(served):
    """As many connections as may stand: each has sent a part of a header, from none of it to all but a byte."""
    threads = served.threads()
    house = [Standing(served, BEGIN[:number % HEADER.size]) for number in range(MOST)]
    wait_until("a thread for each", lambda: served.threads() >= threads + MOST)
    time.sleep(0.5)  # until each thread has counted its connection
    return house


def check_turned_away(served, *streams):
    """Connections on which these are sent are closed at once and without an answer, however much of it is whole."""
    away = [Standing(served, stream) for stream in streams]
    watch(away, SOON)
    for one in away:
        one.wire.close()
        if one.stood is None or one.came:
            raise Failure(f"beside {MOST} connections, another is not closed but told {one.came!r}")
