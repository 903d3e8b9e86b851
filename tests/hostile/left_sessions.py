"""Sessions that were left: nothing of one reaches the next session that has its number."""
import random
import socket

from support.checking import PATIENCE, same
from support.hislip import ANSWER, CLOSED, check_end, message, receive, receive_bytes
from support.scpi import AVAILABLE, IDENTITY
from common import beside, join_as, read_on, resize

HEIRS = 50  # sessions that take the number of one whose answer is on its way


def check_left_session(served, sent):
    """What is left of a session does not reach the next one with its number."""
    old = served.join()
    old.commands.sendall(message(2))
    check_end(old.commands)
    new = join_as(served, old.number)
    same("lock", new.lock(0), 1)
    try:
        old.events.sendall(sent)
    except CLOSED:
        pass
    check_end(old.events)
    same("release", new.release(), 1)
    same("identity", new.query("*IDN?"), IDENTITY)
    new.close()
    old.close()


def check_heirs(served):
    """An answer on its way to a session that was left is no message available of the next one with its number."""
    rng = random.Random(1)
    for _ in range(HEIRS):
        old = served.join()
        resize(old, 17)
        old.commands.sendall(message(7, 1, 0, b"*IDN?;" * rng.randrange(1, 2_000)))
        receive(old.commands)
        old.events.shutdown(socket.SHUT_RDWR)
        draining = beside(read_on, old.commands, bytearray())
        new = join_as(served, old.number)
        for _ in range(10):
            same("message available", new.read_stb() & AVAILABLE, 0)
        new.commands.sendall(message(7, 0, 0xFFFF_FF00, b"*IDN?\n"))
        same("identity", receive_bytes(new.commands, len(ANSWER)), ANSWER)
        draining.join(PATIENCE)
        new.close()
        old.close()


def checks():
    """Each check by its name."""
    for name, sent in [("a device clear", message(19)), ("a release", message(4)), ("a lock", message(4, 1)),
                       ("a size", message(15, 0, 0, bytes(8)))]:
        yield f"a left session: {name}", check_left_session, sent
    yield "heirs of answers", check_heirs
