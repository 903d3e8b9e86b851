"""Large answers: message available before any of them is read, others beside them, and what doesn't fit.

Each check takes the program and a number of rounds.
"""
import socket
import threading
import time

from support.checking import PATIENCE, SOON, Failure, comes, same
from support.scpi import ALL_READINGS, AVAILABLE, MOST_READINGS, SCAN
from support.server import Served

FITTING = 13  # answers of all readings in 16 MiB
OFTEN = 10_900  # times that they are asked for in a message of 65,399 bytes
SMALL, LARGE = 4_096, 1 << 20  # bytes of a client's buffer
ASKERS = 4
TURNS = 20


def scan(client):
    """Takes all readings; the client is patient from then on."""
    client.timeout = None
    same("scan", client.query(SCAN.format(count=MOST_READINGS)), "1")


def message_available_of_a_large_answer(program, _rounds):
    """A client with small buffers sees MAV before it reads any of an answer of 6 MB, and then reads it whole."""
    with Served(program) as served, served.join() as client:
        scan(client)
        alone = seconds_of(client, "FETC?")
        for option in (socket.SO_RCVBUF, socket.SO_SNDBUF):
            client.commands.setsockopt(socket.SOL_SOCKET, option, SMALL)
        client.write(fetch(5))
        if not comes(lambda: client.read_stb() & AVAILABLE, 5 * SOON + 20 * alone):
            raise Failure(f"no message is available, where all readings take {alone * 1_000:.0f} ms")
        client.commands.setsockopt(socket.SOL_SOCKET, socket.SO_RCVBUF, LARGE)
        if client.read() != ";".join([ALL_READINGS] * 5):
            raise Failure("another answer")


def fetch(count):
    return ";".join(["FETC?"] * count)


def seconds_of(client, text):
    began = time.monotonic()
    client.query(text)
    return time.monotonic() - began


def others_go_on(program, _rounds):
    """Beside clients that ask for all readings again and again, others are answered while these are printed."""
    over = threading.Event()
    with Served(program) as served, served.join() as other:
        askers = [served.join() for _ in range(ASKERS)]
        for client in [*askers, other]:
            client.timeout = None
        scan(askers[0])
        alone = min(seconds_of(askers[0], "FETC?") for _ in range(3))

        def ask(client):
            while not over.is_set():
                client.query("FETC?")

        threads = [threading.Thread(target=ask, args=[client]) for client in askers]
        for thread in threads:
            thread.start()
        taken = []
        for _ in range(TURNS):
            taken.append(seconds_of(other, "*IDN?"))
            time.sleep(alone / 10)
        over.set()
        for thread in threads:
            thread.join()
        for client in askers:
            client.close()
    slow = sum(seconds > max(alone / 4, 0.02) for seconds in taken)
    if slow > TURNS // 5:
        raise Failure(f"{slow} of {TURNS} answers took long, {max(taken) * 1_000:.0f} ms at worst; all readings are "
                      f"answered in {alone * 1_000:.0f} ms")


def what_does_not_fit_is_not_printed(program, _rounds):
    """A message of 65,399 bytes asks for all readings again and again; what doesn't fit takes a tenth of a print."""
    with Served(program) as served, served.join() as client:
        scan(client)
        fitting = seconds_of(client, fetch(FITTING))
        client.timeout = (fitting * OFTEN / FITTING / 2 + SOON) * 1_000
        if client.query(fetch(OFTEN)) != ";".join([ALL_READINGS] * FITTING):
            raise Failure("another answer")
        client.timeout = PATIENCE * 1_000
        same("the error", client.query("SYST:ERR?"), '-225,"Out of memory"')


def checks():
    """Each check by its name."""
    each = [message_available_of_a_large_answer, others_go_on, what_does_not_fit_is_not_printed]
    yield from ((check.__name__, check) for check in each)
