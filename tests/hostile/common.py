"""What several checks of hostile clients share: sizes, numbers of sessions, pouring and reading beside."""
import contextlib
import threading

from support.checking import same
from support.hislip import LARGEST, message, receive

WAITING_SCAN = "ROUT:SCAN (@1!1);:TRIG:SOUR BUS;:INIT"
END_OF_SCAN = "*TRG;*OPC?"


def resize(client, size):
    """Tells how large messages this client takes."""
    client.events.sendall(message(15, 0, 0, size.to_bytes(8, "big")))
    same("size", receive(client.events)[0], 16)


def join_as(served, number):
    """The session of this number, once it is free."""
    clients = [served.join()]
    while clients[-1].number != number:
        clients.append(served.join())
    for client in clients[:-1]:
        client.close()
    return clients[-1]


def pour(rng, wire, stream):
    """Sends a stream in pieces; the instrument may have closed the connection."""
    try:
        while stream:
            size = rng.randrange(1, len(stream) + 1)
            wire.sendall(stream[:size])
            stream = stream[size:]
    except OSError:
        pass


def read_on(wire, received):
    """Reads until the connection ends."""
    with contextlib.suppress(OSError):
        while part := wire.recv(LARGEST):
            received += part


def beside(work, *arguments):
    """Does this work in a thread meanwhile."""
    thread = threading.Thread(target=work, args=arguments, daemon=True)
    thread.start()
    return thread
