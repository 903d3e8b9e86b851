"""Answers that are interrupted, cut, cleared at once, as large as any, or never read."""
import concurrent.futures
import contextlib
import random
import socket

from swm import HEADER

from support.checking import PATIENCE, Failure, same
from support.hislip import ANSWER, BEGIN, LARGEST, QUERY, message, receive, receive_bytes
from support.scpi import IDENTITY, MOST_BODY
from support.server import Served
from common import beside, pour, read_on, resize

ROUNDS = 20_000  # of a query and a status query, for each of four clients
ANSWER_BYTES = 2**24
BODY = b"$" * MOST_BODY  # of a macro
SIDE_BYTES = 65_536  # that wait at most for the thread of a second connection
INTERRUPTIONS = 2_000_000  # more than what fills that and the system's own room


def check_interrupted(served):
    """A query before the last answer was told of interrupts, which both connections tell; it is answered."""
    client = served.join()
    client.commands.sendall(QUERY + message(7, 0, 0xFFFF_FF02, b"*IDN?\n"))
    told = ANSWER + message(13, 0, 0xFFFF_FF02) + message(7, 0, 0xFFFF_FF02, IDENTITY.encode() + b"\n")
    same("answers", receive_bytes(client.commands, len(told)), told)
    same("event", receive(client.events), (14, 0, 0xFFFF_FF02, b""))
    client.close()


def check_answer_in_parts(served, size, room):
    """An answer is cut for a client that takes messages of this size into payloads of this many bytes."""
    client = served.join()
    resize(client, size)
    client.commands.sendall(QUERY)
    answer = f"{IDENTITY}\n".encode()
    parts = [answer[start:start + room] for start in range(0, len(answer), room)]
    told = b"".join(message(6, 0, 0xFFFF_FF00, part) for part in parts[:-1]) + message(7, 0, 0xFFFF_FF00, parts[-1])
    same("answer", receive_bytes(client.commands, len(told)), told)
    client.close()


def check_largest_answer(others):
    """An answer has 16 MiB at most, what doesn't fit is -225, and it takes little more than its bytes, also where it
    goes out byte by byte."""
    with Served(others.program) as served:
        client = served.join()
        client.write_raw(b"*DMC 'A',#44096" + BODY)
        text = f"#44096{BODY.decode()}"
        count = ANSWER_BYTES // (len(text) + 1)
        query = "*GMC? 'A';" * (count + 1) + "*OPC?"
        resident = served.resident()
        if client.query(query) != f"{text};" * count + "1":
            raise Failure("another answer")
        same("errors", client.query("SYST:ERR?;ERR?"), '-225,"Out of memory";0,"No error"')
        resize(client, 0)
        client.commands.sendall(message(7, 1, 4, query.encode()))
        start = (f"{text};" * 2).encode()
        told = b"".join(message(6, 0, 4, bytes([byte])) for byte in start)
        same("the start of the answer", receive_bytes(client.commands, len(told)), told)
        if served.resident() > resident + 3 * ANSWER_BYTES // 1_024:
            raise Failure(f"memory grew from {resident} to {served.resident()} kB")
        client.close()
        served.check_sessions()


def check_cleared_at_once(others):
    """Who has read an answer comes after MAV: a status query that tells so finds it clear, and nothing interrupts."""
    with Served(others.program) as served:
        clients = [served.join() for _ in range(4)]
        with concurrent.futures.ThreadPoolExecutor(len(clients)) as pool:
            list(pool.map(read_and_clear, clients))
        clients[0].delivered = 1
        same("errors", clients[0].query("SYST:ERR?"), '0,"No error"')


def read_and_clear(client):
    for _ in range(ROUNDS):
        client.commands.sendall(QUERY)
        same("answer", receive_bytes(client.commands, len(ANSWER)), ANSWER)
        client.events.sendall(message(21, 1, 0xFFFF_FF00))
        same("status", receive_bytes(client.events, HEADER.size), message(22))


def check_client_that_never_reads(served):
    """It fills the wire with answers, and holds nobody up."""
    client, other = served.join(), served.join()
    stream = message(7, 1, 0, b"ROUT:CLOS? (@2!1:2!16,1!1:1!20)") * 100_000
    pouring = beside(pour, random.Random(1), client.commands, stream)
    for _ in range(100):
        same("identity", other.query("*IDN?"), IDENTITY)
    client.commands.shutdown(socket.SHUT_RDWR)
    pouring.join(PATIENCE)
    client.close()
    other.close()
    served.check_sessions(1)


def check_events_never_read(others):
    """A session is left once more waits for its second connection, which its client doesn't read, than may wait."""
    with Served(others.program) as served, served.connect() as commands, socket.socket() as events:
        commands.sendall(BEGIN)
        number = receive(commands).parameter & 0xFFFF
        events.setsockopt(socket.SOL_SOCKET, socket.SO_RCVBUF, 1)
        events.settimeout(PATIENCE)
        events.connect(("127.0.0.1", served.port))
        events.sendall(message(17, 0, number))
        same("attached", receive(events)[0], 18)
        told, came = bytearray(), bytearray()
        reading = beside(read_on, commands, told)
        if interrupts_on(commands):
            raise Failure(f"{INTERRUPTIONS} interruptions leave the session as it is")
        reading.join(PATIENCE)
        read_on(events, came)
        interrupted = told.count(message(13, 0, 0xFFFF_FF00))
        same("no more wait, or were taken", interrupted * HEADER.size <= len(came) + 2 * SIDE_BYTES, True)
        served.check_sessions()


def interrupts_on(wire):
    """Whether all these queries can be sent, each of which interrupts the one before."""
    with contextlib.suppress(OSError):
        for _ in range(INTERRUPTIONS // 100):
            wire.sendall(message(7, 0, 0xFFFF_FF00, b"*OPC?") * 100)
        return True
    return False


def checks():
    """Each check by its name."""
    yield "an answer that isn't read", check_interrupted
    for size, room in [(0, 1), (17, 1), (32, 16), (2**64 - 1, LARGEST - 16)]:
        yield f"a size of {size}", check_answer_in_parts, size, room
    yield "the largest answer", check_largest_answer
    yield "answers that are cleared at once", check_cleared_at_once
    yield "a client that never reads", check_client_that_never_reads
    yield "events that are never read", check_events_never_read
