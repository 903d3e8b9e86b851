"""For how long connections may stand without a session, or without its second connection. Each check has a server on
which another has session 1."""
import contextlib
import itertools
import time

from support.checking import SOON, same, within
from support.hislip import BEGIN, CLOSED, LARGEST, check_end, message, receive
from support.scpi import IDENTITY
from support.sessions import Steady
from support.standing import HEADER_TIME, PAIR_TIME, WRITE_TIME, Standing, check_stood, check_turned_away, fill, \
    half_a_session, trickle, watch


def check_is_free(served, number):
    """The next session has this number."""
    with served.join() as client:
        same("the number of the next session", client.number, number)
        same("identity", client.query("*IDN?"), IDENTITY)


def check_pairs(served, first, number):
    """This first connection's session gets its second one, and stands from then on."""
    with served.connect() as second:
        second.sendall(message(17, 0, number))
        same("AsyncInitializeResponse", receive(second), (18, 0, 0x5357, b""))
        watch([first], PAIR_TIME[0] + SOON - first.age())
        same("the first connection stands", first.stood, None)
        first.wire.sendall(message(7, 0, 4, b"*IDN?"))
        same("identity", receive(first.wire), (7, 0, 4, f"{IDENTITY}\n".encode()))
        second.sendall(message(21, 1))
        same("status", receive(second), (22, 0, 0, b""))


def a_full_house(served):
    """As many connections as may stand, none of which has sent a whole header: one more is closed at once, a session
    continues, and one that ends makes room for sessions, which count no more. After ten seconds all are closed."""
    steady = Steady(served)
    steady.start()
    descriptors, threads = served.descriptors(), served.threads()
    house = fill(served)
    trickle(house[0].wire, BEGIN, 1)
    steady.check_goes_on()
    check_turned_away(served, b"", BEGIN[:7], BEGIN, message(17, 0, steady.client.number))
    house[-1].wire.close()
    served.await_end_of_others(descriptors + len(house) - 1, threads + len(house) - 1)
    with served.join() as first, served.join() as second:
        house[-1] = Standing(served, BEGIN[:15])
        time.sleep(0.5)
        check_turned_away(served, b"", BEGIN)
        same("identities", (first.query("*IDN?"), second.query("*IDN?")), (IDENTITY, IDENTITY))
    steady.check_goes_on()
    check_stood(house, HEADER_TIME)
    check_is_free(served, 3)
    steady.check_goes_on()
    steady.stop()


def a_full_house_beside_half_a_session(served):
    """What is closed at once does nothing, though it was sent whole: it is no second connection of a session."""
    first, number = half_a_session(served)
    house = fill(served)
    check_turned_away(served, *[message(17, 0, number)] * 10)
    watch([first], SOON)
    same("the first connection stands", first.stood, None)
    check_stood(house, HEADER_TIME)
    check_pairs(served, first, number)


def a_first_connection_alone(served):
    """It is closed after a minute, and its session left."""
    one, number = half_a_session(served)
    check_stood([one], PAIR_TIME)
    check_is_free(served, number)


def first_messages_that_are_not_whole(served):
    """They have their header, and a minute for the rest, of which one sends a byte each second."""
    waiting = [Standing(served, BEGIN[:-1]), Standing(served, message(17, 0, 1, b"", 3))]
    slow = Standing(served, message(0, 0, 0x0100_5858, b"", 256))
    trickle(slow.wire, itertools.repeat(0), 1)
    check_stood([*waiting, slow], PAIR_TIME)
    same("answers", [one.came for one in (*waiting, slow)], [b""] * 3)


def first_messages_that_never_end(served):
    """They don't stand for longer where their bytes come one close behind the other, such as are skipped too."""
    alone, _ = half_a_session(served)
    alone.wire.sendall(message(6, 0, 0, b"", LARGEST))
    short = Standing(served, message(0, 0, 0x0100_5858, b"", LARGEST))
    long = Standing(served, message(0, 0, 0x0100_5858, b"", 2**63))
    for one in (alone, short, long):
        trickle(one.wire, itertools.repeat(0), 0.01)
    check_stood([alone, short, long], PAIR_TIME)


def a_client_that_is_alone_and_never_reads(served):
    """It sends what is answered by errors, which it doesn't read, and is closed ten seconds after they find no room."""
    one, number = half_a_session(served)
    with contextlib.suppress(*CLOSED, TimeoutError):
        while one.age() < WRITE_TIME[1]:
            one.wire.settimeout(WRITE_TIME[1] + 1 - one.age())
            one.wire.sendall(message(255) * 1_000)
    one.stood = one.age()
    check_stood([one], WRITE_TIME)
    check_is_free(served, number)


def a_second_connection_of_no_session(served):
    """It gets a FatalError, and is closed at once."""
    with served.connect() as wire, within(SOON, "its end"):
        wire.sendall(message(17, 0, 2))
        same("FatalError", receive(wire), (2, 3, 0, b""))
        check_end(wire)


def a_second_connection_without_a_whole_header(served):
    """It is closed after ten seconds; its session has a minute for another one, and stands from then on."""
    first, number = half_a_session(served)
    late = Standing(served, message(17, 0, number)[:15])
    check_stood([late], HEADER_TIME)
    check_pairs(served, first, number)


def a_silent_session(served):
    """It has both connections, and stands for as long as it likes."""
    with served.join() as client:
        time.sleep(PAIR_TIME[0] + SOON)
        same("identity", client.query("*IDN?"), IDENTITY)
        same("status", client.read_stb(), 0)


CHECKS = [
    a_full_house, a_full_house_beside_half_a_session, a_first_connection_alone, first_messages_that_are_not_whole,
    first_messages_that_never_end, a_client_that_is_alone_and_never_reads, a_second_connection_of_no_session,
    a_second_connection_without_a_whole_header, a_silent_session,
]
