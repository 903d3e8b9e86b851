"""Streams made at random: noise, messages of all kinds and lengths, messages that are cut or have wrong bytes."""
import random

from swm import HEADER

from support.checking import Failure
from support.hislip import BEGIN, LARGEST, QUERY, message
from common import pour
from wrong_messages import FROM_INSTRUMENT

WORDS = [
    b"*IDN?", b"*STB?", b"SYST:ERR?", b"ROUT:CLOS?", b"ROUT:CLOS:STAT?", b" (@1!1", b"(@2!1:2!16)", b"(@104)", b"#0",
    b"#15", b"#9999999999", b"*DMC 'A',", b"*EMC 1", b"A", b"*LMC?", b"*GMC? 'A'", b"'", b'"', b";", b";", b":", b",",
    b"?", b" ", b"1E99999", b"9" * 300, b"\n", b"\0", b"\xff", b"FOO", b"TRIG:COUN?", b"ARM:LAY3:COUN?",
]


def noise(rng):
    return rng.randbytes(rng.randrange(1, 400))


def words(rng):
    text = b"".join(rng.choice(WORDS) for _ in range(rng.randrange(1, 30)))
    return message(rng.choice([6, 7, 7]), rng.randrange(2), rng.randrange(2**32), text)


def header(rng):
    """A message of any kind, whose payload has the length that it tells, or another."""
    kind = rng.choice([rng.randrange(32), rng.randrange(256), rng.choice([4, 6, 7, 8, 12, 15, 19, 21])])
    payload = rng.randbytes(rng.choice([0, 0, 1, 8, 300, LARGEST, LARGEST + 1]))
    length = rng.choice([len(payload)] * 6 + [2**64 - 1, 2**63, 2**32, LARGEST + 1, 0])
    parameter = rng.choice([0, 1, 2, 17, 500, rng.randrange(2**32)])
    return message(kind, rng.choice([0, 1, rng.randrange(256)]), parameter, payload, length)


def messages(rng):
    return b"".join(rng.choice([words, words, header])(rng) for _ in range(rng.randrange(1, 6)))


def cut(rng):
    stream = messages(rng)
    return stream[:rng.randrange(len(stream))]


def turned(rng):
    stream = bytearray(QUERY + message(21) + words(rng) + QUERY)
    for _ in range(rng.randrange(1, 5)):
        stream[rng.randrange(len(stream))] = rng.randrange(256)
    return bytes(stream)


def at_random(rng):
    return rng.choice([noise, messages, messages, cut, turned, words])(rng)


# ---- sending them


def drain(wire):
    """Reads to the end: whole messages. Where input was left unread, a part may be lost."""
    received = b""
    try:
        wire.shutdown(1)
        while part := wire.recv(LARGEST):
            received += part
    except OSError as fault:
        if isinstance(fault, TimeoutError):
            raise Failure("the connection does not end") from fault
        return
    check_messages(received)


def check_messages(received):
    """These are whole messages, of kinds that an instrument sends."""
    while received:
        prologue, kind, _, _, length = HEADER.unpack_from(received)
        if prologue != b"HS" or kind not in FROM_INSTRUMENT or len(received) < HEADER.size + length:
            raise Failure(f"the instrument sends {received[:40]!r}")
        received = received[HEADER.size + length:]


def send_to_nobody(served, rng, stream):
    with served.connect() as wire:
        pour(rng, wire, rng.choice([b"", BEGIN, message(17, 0, rng.randrange(20))]) + stream)
        drain(wire)


def send_to_session(served, rng, stream):
    client = served.join()
    pour(rng, rng.choice([client.commands, client.events]), stream)
    if rng.randrange(3) == 0:
        client.break_off()
        return
    if rng.randrange(2):
        pour(rng, client.events, message(19) + message(21))
    drain(client.commands)
    drain(client.events)
    client.close()


def send_hostile(served, rng):
    rng.choice([send_to_nobody, send_to_session])(served, rng, at_random(rng))


def checks(count, seed):
    """Each check by its name."""
    for number in range(count):
        yield f"random {seed} {number}", send_hostile, random.Random(f"{seed} {number}")
