"""An instrument that does what a script says, for what the program never does and a client has to bear."""
import contextlib
import socket
import threading

from swm import Kind, Session

from support.checking import PATIENCE
from support.hislip import receive, send


@contextlib.contextmanager
def instrument(script):
    """The port of an instrument that does what the script does with the two connections of a session that has begun."""
    def serve():
        with listener.accept()[0] as commands:
            receive(commands)
            send(commands, Kind.InitializeResponse, 0, 0x0100_0007)
            with listener.accept()[0] as events:
                receive(events)
                send(events, Kind.AsyncInitializeResponse)
                receive(events)
                send(events, Kind.AsyncMaximumMessageSizeResponse, 0, 0, (24).to_bytes(8, "big"))
                script(commands, events)

    with socket.create_server(("127.0.0.1", 0)) as listener:
        server = threading.Thread(target=serve, daemon=True)
        server.start()
        yield listener.getsockname()[1]
        server.join(PATIENCE)


def receive_text(commands):
    """The text of the next program message, whatever parts it comes in, and its identifier."""
    text, message = b"", receive(commands)
    while message.kind == Kind.Data:
        text, message = text + message.payload, receive(commands)
    return (text + message.payload).decode(), message.parameter


@contextlib.contextmanager
def scripted(script):
    """A session of such an instrument."""
    with instrument(script) as port, Session(port, timeout=PATIENCE * 1_000) as mainframe:
        yield mainframe
