"""Sessions that do what the client of `examples` does not: they break off, or ask all the while."""
import socket
import struct
import threading

from swm import Kind, Message, Session, SessionError

from support.checking import PATIENCE, Failure, same, wait_until
from support.scpi import IDENTITY


class Client(Session):
    """A session that also shows its bare connections, asks for locks without an exception, and breaks off."""

    @property
    def commands(self):
        return self._commands.socket

    @property
    def events(self):
        return self._events.socket

    def lock(self, milliseconds, key=b""):
        return self._ask_lock(milliseconds, key)

    def release(self):
        return self._request(Message(Kind.AsyncLock), Kind.AsyncLockResponse).control

    def break_off(self, start=b""):
        """Sends the start of a message, and resets both connections."""
        if start:
            self.commands.sendall(start)
        for wire in (self.commands, self.events):
            wire.setsockopt(socket.SOL_SOCKET, socket.SO_LINGER, struct.pack("ii", 1, 0))
        super().end_at_once()


class Steady(threading.Thread):
    """A session that is answered right all the while, on both connections."""

    def __init__(self, served):
        super().__init__(daemon=True)
        self.client = served.join()
        self.client.write('*DMC "STEADY",#15*IDN?;*EMC 1;:ROUT:CLOS (@2!16)')
        self.over = threading.Event()
        self.failure = None
        self.rounds = 0

    def run(self):
        try:
            while not self.over.is_set():
                same("a macro, a relay", self.client.query("STEADY;:ROUT:CLOS? (@2!16)"), f"{IDENTITY};1")
                self.client.read_stb()
                self.rounds += 1
        except (Failure, OSError) as failure:
            self.failure = failure

    def check(self):
        """Tells once of what went wrong."""
        failure, self.failure = self.failure, None
        if failure:
            raise Failure(f"the steady session: {type(failure).__name__} {failure}")

    def check_goes_on(self):
        """It is answered now."""
        end = self.rounds + 2
        wait_until("an answer of the steady session", lambda: self.rounds >= end or self.failure)
        self.check()

    def stop(self):
        self.over.set()
        self.join(PATIENCE)
        self.check()


def session(served):
    """A session as a user has it, beside another that is the first one."""
    return Session(served.port, timeout=PATIENCE * 1_000)


def refuses(call, *words):
    """The call raises the session's error, which has these words."""
    try:
        call()
    except SessionError as fault:
        missing = [word for word in words if word not in str(fault)]
        if missing:
            raise Failure(f"{fault} does not say {missing}") from fault
        return
    raise Failure(f"no error where there should be {words}")
