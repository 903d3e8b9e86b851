"""Messages of HiSLIP, by their bytes, on a bare connection."""
from swm import HEADER, Message

from support.checking import Failure
from support.scpi import IDENTITY

CLOSED = (ConnectionResetError, BrokenPipeError)
LARGEST = 65_536  # bytes of a payload


def message(kind, control=0, parameter=0, payload=b"", length=None, prologue=b"HS"):
    return HEADER.pack(prologue, kind, control, parameter, len(payload) if length is None else length) + payload


def fatal(code):
    return message(2, code)


def error(code):
    return message(3, code)


BEGIN = message(0, 0, 0x0100_5858, b"hislip0")
QUERY = message(7, 1, 0xFFFF_FF00, b"*IDN?\n")
ANSWER = message(7, 0, 0xFFFF_FF00, IDENTITY.encode() + b"\n")


def program_message(text):
    """A program message as a whole."""
    return message(7, 1, 0xFFFF_FF00, f"{text}\n".encode())


def send(wire, kind, control=0, parameter=0, payload=b""):
    """Sends a message on a bare connection."""
    wire.sendall(message(kind, control, parameter, payload))


def receive_bytes(wire, count):
    """So many bytes of a bare connection."""
    received = b""
    while len(received) < count:
        part = wire.recv(count - len(received))
        if not part:
            raise ConnectionError("the instrument closed the connection")
        received += part
    return received


def receive(wire):
    """The next message of a bare connection."""
    _, kind, control, parameter, length = HEADER.unpack(receive_bytes(wire, HEADER.size))
    return Message(kind, control, parameter, receive_bytes(wire, length))


def check_end(wire):
    """The instrument has closed this connection, or closes it now."""
    try:
        rest = wire.recv(1)
    except CLOSED:
        return
    if rest:
        raise Failure("the connection does not end")
