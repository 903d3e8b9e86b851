"""What the client makes of messages that are not due: late ones, parts, errors, and bytes that are no message."""
import threading

from swm import HEADER, Kind, Session

from support.checking import PATIENCE, same
from support.hislip import receive, send
from support.scripted import scripted
from support.server import SESSIONS
from support.sessions import refuses, session


def names_what_came(served):
    refuses(lambda: Session(served.port, sub_address="a" * 257), "FatalError 3 (a wrong initialization)",
            "InitializeResponse")
    refuses(lambda: Session(1), "a connection")
    everyone = [served.join() for _ in range(SESSIONS - 1)]
    refuses(lambda: session(served), "FatalError 4 (too many clients)")
    for client in everyone:
        client.close()
    with served.join() as mainframe:
        send(mainframe.events, 99)
        refuses(mainframe.read_stb, "Error 1 (a kind that it doesn't serve)", "AsyncStatusResponse")
        mainframe.write_raw(b"\n")
        send(mainframe.commands, Kind.FatalError)
        refuses(mainframe.read, "an answer")
        refuses(lambda: [mainframe.query("*IDN?") for _ in range(2)], "an answer")


def passes_over_what_comes_late(_):
    """The status byte of a call that was given up is not the next one's, nor is the answer about a lock."""
    given_up = threading.Event()

    def script(commands, events):
        receive(commands)
        receive(events)
        receive(events)
        for status in (1, 2):
            send(events, Kind.AsyncStatusResponse, status)
            send(events, Kind.AsyncInterrupted, 0, 0xFFFF_FF10 + status)
        receive(events)
        given_up.wait(PATIENCE)
        send(events, Kind.AsyncLockResponse, 1)
        send(events, Kind.AsyncServiceRequest, 68)

    with scripted(script) as mainframe:
        same("number", mainframe.number, 7)
        mainframe.timeout = 50
        refuses(mainframe.read_stb, "nothing came in time", "AsyncStatusResponse")
        mainframe.timeout = PATIENCE * 1_000
        mainframe.write("*CLS")
        same("status", mainframe.read_stb(), 2)
        same("interruptions", mainframe.interruptions, [0xFFFF_FF11])
        mainframe.timeout = 50
        refuses(lambda: mainframe.lock_excl(0), "nothing came in time", "AsyncLockResponse")
        given_up.set()
        same("the request", mainframe.wait_for_srq(), 68)


def keeps_parts_of_an_answer(_):
    """A message of commands goes in parts of 8 bytes; what came of an answer in time is the front of what comes."""
    late = threading.Event()

    def script(commands, _):
        parts = [receive(commands) for _ in range(3)]
        same("kinds", [part.kind for part in parts], [Kind.Data, Kind.Data, Kind.DataEnd])
        same("text", b"".join(part.payload for part in parts), b"*IDN?;*OPC?;*STB?\n")
        send(commands, Kind.DataEnd, 0, parts[1].parameter, b"another's\n")
        send(commands, Kind.Data, 0, parts[2].parameter, b"a front, ")
        commands.sendall(HEADER.pack(b"HS", Kind.DataEnd, 0, parts[2].parameter, 10) + b"and")
        late.wait(PATIENCE)
        commands.sendall(b" rest\n\n")

    with scripted(script) as mainframe:
        mainframe.write("*IDN?;*OPC?;*STB?")
        mainframe.timeout = 200
        refuses(mainframe.read, "nothing came in time", "an answer to *IDN?;*OPC?;*STB?")
        late.set()
        mainframe.timeout = PATIENCE * 1_000
        same("answer", mainframe.read(), "a front, and rest\n")


def refuses_what_is_no_answer(_):
    """Another kind, bytes that begin no message, a payload that is too long, an end in mid-message."""
    for sent, words in [
        (HEADER.pack(b"HS", Kind.AsyncStatusResponse, 5, 0, 0), ["AsyncStatusResponse 5", "an answer to *IDN?"]),
        (HEADER.pack(b"HS", 200, 5, 0, 0), ["a message of kind 200", "an answer"]),
        (HEADER.pack(b"HT", Kind.DataEnd, 0, 0, 0), ["which begins no message", "an answer"]),
        (HEADER.pack(b"HS", Kind.DataEnd, 0, 0xFFFF_FF00, 2**40), ["which begins no message", "an answer"]),
        (HEADER.pack(b"HS", Kind.DataEnd, 0, 0xFFFF_FF00, 2) + b"a", ["the end of the connection", "an answer"]),
        (HEADER.pack(b"HS", Kind.FatalError, 1, 0, 0), ["FatalError 1 (no header stood there)", "an answer"]),
        (HEADER.pack(b"HS", Kind.Error, 4, 0, 0), ["Error 4 (a payload that is too long)", "an answer"]),
    ]:
        with scripted(lambda commands, _, sent=sent: (receive(commands), commands.sendall(sent))) as mainframe:
            mainframe.write("*IDN?")
            refuses(mainframe.read, *words)


CHECKS = [names_what_came, passes_over_what_comes_late, keeps_parts_of_an_answer, refuses_what_is_no_answer]
