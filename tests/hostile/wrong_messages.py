"""HiSLIP messages that may not stand where they do, and what docs/HISLIP.md tells of each."""
from support.checking import SOON, same, within
from support.hislip import ANSWER, BEGIN, LARGEST, QUERY, check_end, error, fatal, message, receive, receive_bytes
from support.scpi import IDENTITY

FROM_INSTRUMENT = {1, 2, 3, 5, 6, 7, 9, 11, 13, 14, 16, 18, 20, 22, 23, 25}  # the kinds that an instrument sends
SIZE = message(16, 0, 0, LARGEST.to_bytes(8, "big"))
TOO_LARGE = message(7, 1, 0, b" " * (LARGEST + 1))

# What is sent on a first connection, and the last message that comes back before the instrument closes it.
FIRST = [
    ("a wrong prologue", message(0, prologue=b"XS"), fatal(1)),
    ("a prologue in the wrong order", message(0, prologue=b"SH"), fatal(1)),
    ("a line as of a terminal", b"*IDN?\n" * 4, fatal(1)),
    ("Data at the beginning", message(6, 0, 0, b"*IDN?"), fatal(3)),
    ("DataEnd at the beginning", QUERY, fatal(3)),
    ("Trigger at the beginning", message(12), fatal(3)),
    ("a status query at the beginning", message(21), fatal(3)),
    ("a kind without a meaning at the beginning", message(26), fatal(3)),
    ("a vendor's kind at the beginning", message(255), fatal(3)),
    ("a sub-address of 257 bytes", message(0, 0, 0x0100_5858, b"a" * 257), fatal(3)),
    ("a sub-address that is no ASCII", message(0, 0, 0x0100_5858, b"\xff"), fatal(3)),
    ("session 0", message(17, 0, 0), fatal(3)),
    ("session 17", message(17, 0, 17), fatal(3)),
    ("session 257", message(17, 0, 257), fatal(3)),
    ("session 2^32 - 1", message(17, 0, 2**32 - 1), fatal(3)),
    ("a session that has both connections", message(17, 0, 1), fatal(3)),
    ("a session that nobody joined", message(17, 0, 2), fatal(3)),
    ("Initialize twice", BEGIN + BEGIN, fatal(3)),
    ("AsyncInitialize on the first connection", BEGIN + message(17, 0, 2), fatal(3)),
    ("Data without the second connection", BEGIN + message(6, 0, 0, b"*IDN?"), fatal(2)),
    ("DataEnd without the second connection", BEGIN + QUERY, fatal(2)),
    ("Trigger without the second connection", BEGIN + message(12), fatal(2)),
    ("a wrong prologue behind Initialize", BEGIN + message(7, prologue=b"hs"), fatal(1)),
]

# What is sent on the connection for commands of a session, and what comes back; the session continues.
COMMANDS = [
    ("a payload that is too large", TOO_LARGE, error(4)),
    ("a part that is too large", message(6, 1, 0, b" " * (LARGEST + 1)) + QUERY + QUERY, error(4) + ANSWER),
    ("the largest payload", message(7, 1, 0xFFFF_FF00, b"*IDN?".ljust(LARGEST)), ANSWER),
    ("a message of two payloads", message(6, 1, 0, b"*IDN?") + message(7, 1, 0xFFFF_FF00), ANSWER),
    ("a message of 65,538 bytes", message(7, 1, 0, b"*CLS") + message(6, 1, 0, b" " * LARGEST) + message(7, 1, 0, b";;")
     + message(7, 1, 4, b"SYST:ERR?"), message(7, 0, 4, b'-363,"Input buffer overrun"\n')),
    ("a message of no bytes", message(7, 1) + QUERY, ANSWER),
    ("messages of the other connection", b"".join(message(kind) for kind in (4, 10, 15, 19, 21, 24)), error(1) * 6),
    ("an instrument's messages", b"".join(message(kind) for kind in sorted(FROM_INSTRUMENT - {2, 3, 6, 7})),
     error(1) * (len(FROM_INSTRUMENT) - 4)),
    ("kinds without a meaning", b"".join(message(kind) for kind in range(26, 128)), error(1) * 102),
    ("vendors' kinds", b"".join(message(kind) for kind in range(128, 256)), error(3) * 128),
    ("Error", message(3, 4, 7, b"why"), b""),
]

# The same on its connection for events.
EVENTS = [
    ("a lock with another control code", message(4, 2), error(2)),
    ("a key of 257 bytes", message(4, 1, 0, b"k" * 257), message(5, 3)),
    ("a release of no lock", message(4), message(5, 3)),
    ("remote control", b"".join(message(10, code) for code in range(7)), message(11) * 7),
    ("remote control by another code", message(10, 7) + message(10, 255), error(2) * 2),
    ("sizes of 0, 3, 8 and 300 bytes", b"".join(message(15, 0, 0, b"\xff" * n) for n in (0, 3, 8, 300)), SIZE * 4),
    ("a payload that is too large", message(21, 0, 0, b" " * (LARGEST + 1)), error(4)),
    ("messages of the first connection", b"".join(message(kind) for kind in (6, 7, 8, 12)), error(1) * 4),
    ("kinds without a meaning", b"".join(message(kind) for kind in range(26, 128)), error(1) * 102),
    ("vendors' kinds", b"".join(message(kind) for kind in range(128, 256)), error(3) * 128),
    ("Error", message(3, 1, 0, b"why"), b""),
]

# What ends a session: sent on the connection for commands, or on that for events.
ENDS = [
    ("FatalError for commands", True, message(2, 1, 0, b"why"), b""),
    ("FatalError for events", False, message(2), b""),
    ("Initialize for commands", True, BEGIN, fatal(3)),
    ("Initialize for events", False, BEGIN, fatal(3)),
    ("AsyncInitialize for events", False, message(17, 0, 1), fatal(3)),
    ("a wrong prologue for commands", True, message(7, prologue=b"\0\0"), fatal(1)),
    ("a wrong prologue for events", False, message(21, prologue=b"HT"), fatal(1)),
]


def check_first(served, sent, told):
    with served.connect() as wire:
        wire.sendall(sent)
        if sent.startswith(BEGIN):
            same("kind", receive(wire)[0], 1)
        same("answer", receive_bytes(wire, len(told)), told)
        check_end(wire)


def check_wire(served, name, sent, told):
    """A session that got this on one of its connections answers that, and continues."""
    client = served.join()
    wire = getattr(client, name)
    wire.sendall(sent)
    same("answer", receive_bytes(wire, len(told)), told)
    client.delivered = 1
    same("identity", client.query("*IDN?"), IDENTITY)
    client.close()


def check_session_ends(served, on_commands, sent, told):
    """Both connections end at once."""
    client = served.join()
    wire, other = (client.commands, client.events) if on_commands else (client.events, client.commands)
    with within(SOON, "the end of a session"):
        wire.sendall(sent)
        same("answer", receive_bytes(wire, len(told)), told)
        check_end(wire)
        check_end(other)
    client.close()


def checks():
    """Each check by its name."""
    yield from ((f"first: {name}", check_first, *row) for name, *row in FIRST)
    yield from ((f"commands: {name}", check_wire, "commands", *row) for name, *row in COMMANDS)
    yield from ((f"events: {name}", check_wire, "events", *row) for name, *row in EVENTS)
    yield from ((f"ends: {name}", check_session_ends, *row) for name, *row in ENDS)
