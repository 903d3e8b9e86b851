"""PyVISA's order of HiSLIP messages, byte by byte."""
from swm import Kind

from support.checking import same
from support.hislip import receive, send
from support.scpi import IDENTITY

ROUNDS = 3_000  # of PyVISA's order of messages, none of which may be interrupted


def exchange(wire, sent, kind):
    """Sends a message, and gives the next one, which has to be of this kind."""
    send(wire, *sent)
    answer = receive(wire)
    same("kind", Kind(answer.kind).name, kind.name)
    return answer


def keeps_pyvisas_order(served):
    """Initialize with vendor `xx`, both connections, the size; then again and again a query, its answer, and a status
    query that alone tells that the answer was read. None is interrupted, and the byte is always 0."""
    with served.connect() as commands, served.connect() as events:
        begun = exchange(commands, (Kind.Initialize, 0, 0x0100_7878, b"hislip0"), Kind.InitializeResponse)
        same("version", begun.parameter >> 16, 0x0100)
        exchange(events, (Kind.AsyncInitialize, 0, begun.parameter & 0xFFFF), Kind.AsyncInitializeResponse)
        size = (Kind.AsyncMaximumMessageSize, 0, 0, (1 << 20).to_bytes(8, "big"))
        taken = exchange(events, size, Kind.AsyncMaximumMessageSizeResponse)
        same("size", int.from_bytes(taken.payload, "big"), 65_536)
        send(commands, Kind.DataEnd, 0, 0xFFFF_FF00, b"*CLS\n")
        for turn in range(ROUNDS):
            identifier = (0xFFFF_FF02 + 2 * turn) % 2**32
            answer = exchange(commands, (Kind.DataEnd, 0, identifier, b"*IDN?\n"), Kind.DataEnd)
            same("answer", answer[1:], (0, identifier, f"{IDENTITY}\n".encode()))
            status = exchange(events, (Kind.AsyncStatusQuery, 1, identifier), Kind.AsyncStatusResponse)
            same("status byte", status.control, 0)


CHECKS = [keeps_pyvisas_order]
