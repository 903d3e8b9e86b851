"""Crowds of connections: house after house that say nothing, first connections alone, many at once, and one after
another. They leave no thread, no descriptor and no session behind.
"""
import time

from swm import HEADER

from support.checking import SOON, check_growth, same
from support.hislip import BEGIN, fatal, receive_bytes
from support.scpi import IDENTITY
from support.server import SESSIONS
from support.standing import HEADER_TIME, MOST, PAIR_TIME, Standing, check_stood, check_turned_away, fill, \
    half_a_session, watch

AT_ONCE = 32
ONE_AFTER_ANOTHER = 200
HOUSES = 10  # one after another, of which every fifth stands for as long as it may
TURNED_AWAY = 200
OTHERS = 1  # sessions that others have all the while


def houses_full_of_connections(served):
    """House after house of connections that say nothing, and many more at the door, leave nothing behind."""
    descriptors, threads = served.descriptors(), served.threads()
    resident = []
    for number in range(1, HOUSES + 1):
        house = fill(served)
        check_turned_away(served, *[BEGIN[:length % (len(BEGIN) + 1)] for length in range(TURNED_AWAY)])
        if number % 5 == 0:
            check_stood(house, HEADER_TIME)
        for one in house:
            one.wire.close()
        served.await_end_of_others(descriptors, threads)
        resident.append(served.resident())
    check_growth(resident[HOUSES // 2], resident[-1])
    served.check_sessions(OTHERS)


def sessions_that_have_one_connection(served):
    """First connections alone have all numbers that are free, and after a minute none."""
    descriptors, threads = served.descriptors(), served.threads()
    halves = [half_a_session(served)[0] for _ in range(SESSIONS - OTHERS)]
    refused = Standing(served, BEGIN)
    watch([refused], SOON)
    same("a refusal", refused.came, fatal(4))
    check_stood(halves, PAIR_TIME)
    served.await_end_of_others(descriptors, threads)
    served.check_sessions(OTHERS)


def join_at_once(served):
    """How many of many that ask for a session at once get one; the others are refused."""
    wires = [served.connect() for _ in range(AT_ONCE)]
    for wire in wires:
        wire.sendall(BEGIN)
    kinds = [receive_bytes(wire, HEADER.size)[2:4] for wire in wires]
    for wire in wires:
        wire.close()
    joined = kinds.count(b"\1\0")
    same("refusals", kinds.count(b"\2\4"), AT_ONCE - joined)
    return joined


def connections_at_once(served):
    """No more sessions are given than there are, and all of them once those before have left; as many connections
    more say nothing, so that there is room for all."""
    silent = [served.connect() for _ in range(MOST - AT_ONCE)]
    time.sleep(0.5)
    descriptors, threads = served.descriptors(), served.threads()
    seen = [0]
    while max(seen) < SESSIONS - OTHERS and len(seen) < 100:
        seen.append(join_at_once(served))
        served.await_end_of_others(descriptors, threads)
    same("the most sessions", max(seen), SESSIONS - OTHERS)
    for wire in silent:
        wire.close()
    served.check_sessions(OTHERS)


def connections_one_after_another(served):
    descriptors, threads = served.descriptors(), served.threads()
    for turn in range(ONE_AFTER_ANOTHER):
        if turn % 2:
            served.connect().close()
        else:
            client = served.join()
            same("identity", client.query("*IDN?"), IDENTITY)
            client.close()
    served.await_end_of_others(descriptors, threads)
    served.check_sessions(OTHERS)


CHECKS = [
    houses_full_of_connections, sessions_that_have_one_connection, connections_at_once, connections_one_after_another,
]
