#!/usr/bin/env python3
"""A HiSLIP session of `mainframe serve`, by Python's standard library alone (3.10 and later), with PyVISA's names:

    from swm import Session

    with Session() as mainframe:
        print(mainframe.query("*IDN?"))

As a program it is a terminal, by `terminal.py` beside it:

    examples/swm.py [PORT [HOST]]
"""
from __future__ import annotations

import contextlib
import enum
import re
import socket
import struct
import sys
import time
import uuid
from collections.abc import Callable, Iterable, Iterator, Sequence
from typing import Any, NamedTuple

PORT = 4880
HEADER = struct.Struct(">2sBBIQ")  # prologue, kind, control code, parameter, length of the payload
PROLOGUE = b"HS"
VERSION_AND_VENDOR = 0x0100_5858  # version 1.0 of the protocol, vendor `XX`
FIRST_IDENTIFIER = 0xFFFF_FF00
MOST_MILLISECONDS = 2**32 - 1  # the longest wait for a lock
SETTLING = 1000  # milliseconds for which a close or a release waits, at most, until the last message is done
MESSAGE_AVAILABLE = 16  # of the status byte
LARGEST = 1 << 20  # bytes of the largest message that this side takes
ERROR = re.compile(r'-?\d+,"(?:[^"]|"")*"')
ERROR_COUNT = ":SYST:ERR:COUN?"


class Kind(enum.IntEnum):
    """The kinds of messages, by the standard's names."""
    Initialize, InitializeResponse, FatalError, Error, AsyncLock, AsyncLockResponse, Data, DataEnd = range(8)
    DeviceClearComplete, DeviceClearAcknowledge = 8, 9
    Trigger, Interrupted, AsyncInterrupted = 12, 13, 14
    AsyncMaximumMessageSize, AsyncMaximumMessageSizeResponse, AsyncInitialize, AsyncInitializeResponse = 15, 16, 17, 18
    AsyncDeviceClear, AsyncServiceRequest, AsyncStatusQuery, AsyncStatusResponse = 19, 20, 21, 22
    AsyncDeviceClearAcknowledge, AsyncLockInfo, AsyncLockInfoResponse = 23, 24, 25


FAULTS = {
    (Kind.FatalError, 1): "no header stood there", (Kind.FatalError, 2): "used without both connections",
    (Kind.FatalError, 3): "a wrong initialization", (Kind.FatalError, 4): "too many clients",
    (Kind.Error, 1): "a kind that it doesn't serve", (Kind.Error, 2): "an unknown control code",
    (Kind.Error, 3): "a vendor's kind", (Kind.Error, 4): "a payload that is too long",
}


class SessionError(OSError):
    """Something else came than was due: another message, an error, the end of the connection, or nothing in time."""

    def __init__(self, came: str, due: str) -> None:
        super().__init__(f"{came}, where {due} was due")
        self.came = came
        self.due = due


class ScanError(Exception):
    """A scan was refused or broken off; `errors` has what was taken from the queue then. `DIAG:SCAN:CHEC?` answers why
    it would be refused now."""

    def __init__(self, errors: list[str]) -> None:
        super().__init__("; ".join(errors) or "the errors were taken by another client")
        self.errors = errors


class Message(NamedTuple):
    """A HiSLIP message."""
    kind: int
    control: int = 0
    parameter: int = 0
    payload: bytes = b""

    def __str__(self) -> str:
        name = Kind(self.kind).name if self.kind in set(Kind) else f"a message of kind {self.kind}"
        fault = FAULTS.get((self.kind, self.control))
        return f"{name} {self.control}" + (f" ({fault})" if fault else f" with parameter {self.parameter:#x}")


def end_of(timeout: float | None) -> float | None:
    """When so many milliseconds from now are over; None is never."""
    return None if timeout is None else time.monotonic() + timeout / 1000


class Wire:
    """One connection. What came of a message before its time was over is kept for the next call."""

    def __init__(self, port: int, host: str, end: float | None, due: str) -> None:
        self._came = bytearray()
        with self._tells(due):
            self.socket = socket.create_connection((host, port), self._left(end))
            self.socket.setsockopt(socket.IPPROTO_TCP, socket.TCP_NODELAY, 1)

    @staticmethod
    def _left(end: float | None) -> float | None:
        return None if end is None else max(end - time.monotonic(), 0.001)

    @staticmethod
    @contextlib.contextmanager
    def _tells(due: str) -> Iterator[None]:
        """The system's faults as a SessionError."""
        try:
            yield
        except TimeoutError as fault:
            raise SessionError("nothing came in time", due) from fault
        except SessionError:
            raise
        except OSError as fault:
            raise SessionError(f"the system tells {fault}", due) from fault

    def send(self, message: Message, end: float | None) -> None:
        """Sends a message whole; where it can't, the connection is of no more use and is closed."""
        kind, control, parameter, payload = message
        try:
            with self._tells("room for what is sent"):
                self.socket.settimeout(self._left(end))
                self.socket.sendall(HEADER.pack(PROLOGUE, kind, control, parameter, len(payload)) + payload)
        except BaseException:
            self.close()
            raise

    def receive(self, end: float | None, due: str) -> Message:
        """The next message, before that time."""
        with self._tells(due):
            self._fill(HEADER.size, end, due)
            prologue, kind, control, parameter, length = HEADER.unpack_from(self._came)
            if prologue != PROLOGUE or length > LARGEST:
                raise SessionError(f"{bytes(self._came[:HEADER.size])!r}, which begins no message", due)
            self._fill(HEADER.size + length, end, due)
        message = Message(kind, control, parameter, bytes(self._came[HEADER.size:]))
        self._came.clear()
        if kind in (Kind.FatalError, Kind.Error):
            raise SessionError(str(message), due)
        return message

    def _fill(self, count: int, end: float | None, due: str) -> None:
        while len(self._came) < count:
            self.socket.settimeout(self._left(end))
            part = self.socket.recv(count - len(self._came))
            if not part:
                raise SessionError("the end of the connection", due)
            self._came += part

    def close(self) -> None:
        """Closes the connection."""
        self.socket.close()


class Session:
    """A session of an instrument: one connection for commands and answers, one for status and service requests.

    `timeout` is in milliseconds, None for no limit, and may be changed at any time. What stands between the answers of
    the second connection is kept apart: `requests` has the status bytes of service requests that nobody waited for
    yet, `interruptions` the identifiers of commands that came before the answer to an earlier one was read.
    """

    def __init__(self, port: int = PORT, host: str = "127.0.0.1", timeout: float | None = 2000,
                 sub_address: str = "hislip0") -> None:
        self.timeout = timeout
        self.requests: list[int] = []
        self.interruptions: list[int] = []
        self.delivered = 0  # 1 once an answer was read to its end, as the next message of commands tells
        self.identifier = FIRST_IDENTIFIER  # of the next message of commands
        self._sent: int | None = None  # the identifier of the last one
        self._asked = "nothing"  # the text of the last one
        self._parts = bytearray()  # of an answer whose end didn't come yet
        self._kept: bytes | None = None  # the answer to the last message, which came before it was read
        self._queued = 0  # how many errors were queued when the last scan had been started
        self._owed: list[Kind] = []  # what is to come on the second connection, as it was asked for
        with contextlib.ExitStack() as opened:
            end = end_of(timeout)
            self._commands = Wire(port, host, end, "a connection")
            opened.callback(self._commands.close)
            self._commands.send(Message(Kind.Initialize, 0, VERSION_AND_VENDOR, sub_address.encode()), end)
            self.number = self._wanted(self._commands, Kind.InitializeResponse, end).parameter & 0xFFFF
            self._events = Wire(port, host, end, "a second connection")
            opened.callback(self._events.close)
            self._request(Message(Kind.AsyncInitialize, 0, self.number), Kind.AsyncInitializeResponse)
            size = Message(Kind.AsyncMaximumMessageSize, 0, 0, LARGEST.to_bytes(8, "big"))
            taken = self._request(size, Kind.AsyncMaximumMessageSizeResponse).payload
            self._room = max(int.from_bytes(taken, "big") - HEADER.size, 1)
            opened.pop_all()

    def __enter__(self) -> Session:
        return self

    def __exit__(self, *_: object) -> None:
        self.close()

    def close(self) -> None:
        """Ends the session once its last message is done, or a second later; its locks are freed."""
        self._settle()
        self.end_at_once()

    def end_at_once(self) -> None:
        """Ends the session at once."""
        self._commands.close()
        self._events.close()

    # ---- commands and answers

    def write(self, message: str, termination: str = "\n") -> int:
        """Sends a program message; tells its length in bytes."""
        return self.write_raw((message + termination).encode("utf-8", "surrogateescape"))

    def write_raw(self, message: bytes) -> int:
        """Sends the bytes of a program message, in parts that the instrument takes."""
        starts = range(0, max(len(message), 1), self._room)
        for start in starts:
            kind = Kind.DataEnd if start == starts[-1] else Kind.Data
            self._command(kind, message[start:start + self._room])
        self._asked = message[:60].decode("utf-8", "replace").strip()
        return len(message)

    def write_binary_values(self, message: str, values: Sequence[Any], datatype: str = "B") -> int:
        """Sends a message and, as its last element, the values as a definite block; datatype as in `struct`."""
        block = struct.pack(f">{len(values)}{datatype}", *values)
        length = str(len(block))
        return self.write_raw(f"{message}#{len(length)}{length}".encode() + block + b"\n")

    def read_raw(self) -> bytes:
        """The bytes of the answer to the last message; answers of earlier ones, which it interrupted, are dropped."""
        kept, self._kept = self._kept, None
        return self._answer([self._sent])[1] if kept is None else kept

    def read(self) -> str:
        """The answer to the last message, without its line feed."""
        text = self.read_raw().decode("utf-8", "surrogateescape")
        return text[:-1] if text.endswith("\n") else text

    def query(self, message: str) -> str:
        """Sends a message and reads its answer."""
        self.write(message)
        return self.read()

    def query_ascii_values(self, message: str, converter: Callable[[str], Any] = float, separator: str = ",") -> list:
        """Sends a message, and reads an answer of several values."""
        return [converter(value) for value in self.query(message).split(separator)]

    def lines(self, text: Iterable[str]) -> Iterator[str]:
        """Sends line by line and gives the answers, as `mainframe run` does; a line that has none gives none."""
        for line in text:
            answer, _ = self.line(line)
            if answer is not None:
                yield answer

    def line(self, text: str) -> tuple[str | None, int]:
        """Sends a line; gives its answer, None where it has none, and the count of errors that are queued after it. The
        count is asked for behind the line, and by its answer the end of the line's is known."""
        self.write(text.rstrip("\n"))
        of_line = self._sent
        self.delivered = 1  # its answer, where it has one, is read in any case
        self.write(ERROR_COUNT)
        identifier, answer = self._answer([of_line, self._sent])
        if identifier != of_line:
            return None, int(answer)
        return answer.decode("utf-8", "surrogateescape").rstrip("\n"), int(self.read_raw())

    def errors(self) -> list[str]:
        """Takes all errors from the queue, the oldest first."""
        return [error for error in ERROR.findall(self.query(":SYST:ERR:ALL?")) if not error.startswith("0,")]

    # ---- scans

    def read_scan(self, timeout: float | str | None = "default") -> list[float]:
        """Starts a scan and gives its readings, by `READ?`, within so many milliseconds. It raises ScanError where the
        scan was refused or broken off, and SessionError where the time is over: `clear` gives up the wait, and `ABORt`
        ends the scan."""
        with self._within(timeout):
            answer, _ = self.line(":READ?")
        if answer is None:
            raise ScanError(self.errors())
        return [float(value) for value in answer.split(",")]

    def start_scan(self) -> None:
        """Starts a scan, and raises ScanError where it was refused; `fetch_scan` gives its readings."""
        before = int(self.query(ERROR_COUNT))
        _, self._queued = self.line(":INIT")
        self._raise_more_than(before)

    def fetch_scan(self, timeout: float | str | None = "default") -> list[float]:
        """Waits until no scan runs, for so many milliseconds, and gives the readings of the last one. It raises
        ScanError where more errors are queued than after `start_scan`, and SessionError where the time is over: then
        it can be called again, after `clear`."""
        before = self._queued
        with self._within(timeout):
            _, self._queued = self.line("*OPC?")
        self._raise_more_than(before)
        return self.query_ascii_values(":FETC?")

    def load_program(self, text: str) -> None:
        """Takes a listing as the scan program, which is on then. It raises ScanError where the listing is refused: then
        the program before it stays as it was."""
        before = int(self.query(ERROR_COUNT))
        self.write_binary_values(":ROUT:SCAN:PROG ", text.encode("utf-8", "surrogateescape"))
        self._queued = int(self.query(ERROR_COUNT))
        self._raise_more_than(before)

    def check_program(self, text: str) -> str:
        """What the instrument says of a listing with its cards as they are: `ok bound 4 readings 3`, or why its scan may
        not be done. The scan program stays as it is."""
        self.write_binary_values(":DIAG:SCAN:CHEC? ", text.encode("utf-8", "surrogateescape"))
        return self.read()[1:-1].replace('""', '"')

    def program(self) -> str:
        """The listing of the scan program; an empty text where there is none."""
        self.write(":ROUT:SCAN:PROG?")
        block = self.read_raw()
        return block[2 + int(block[1:2]):].decode("ascii").removesuffix("\n")

    def _raise_more_than(self, before: int) -> None:
        if self._queued > before:
            self._queued = 0
            raise ScanError(self.errors())

    @contextlib.contextmanager
    def _within(self, timeout: float | str | None) -> Iterator[None]:
        """While the block runs, this is the limit of each call."""
        before = self.timeout
        self.timeout = before if timeout == "default" else timeout
        try:
            yield
        finally:
            self.timeout = before

    def trigger(self) -> None:
        """A bus trigger, as `*TRG`."""
        self._command(Kind.Trigger)
        self._asked = "a trigger"

    assert_trigger = trigger

    def clear(self) -> None:
        """Clears the device: gives up what it does for this session, and drops what is on its way from it."""
        features = self._request(Message(Kind.AsyncDeviceClear), Kind.AsyncDeviceClearAcknowledge).control
        end = end_of(self.timeout)
        self._commands.send(Message(Kind.DeviceClearComplete, features), end)
        while self._commands.receive(end, "DeviceClearAcknowledge").kind != Kind.DeviceClearAcknowledge:
            pass
        self._parts.clear()
        self._kept = None
        self.delivered, self.identifier, self._sent = 0, FIRST_IDENTIFIER, None

    def _command(self, kind: Kind, payload: bytes = b"") -> None:
        self._commands.send(Message(kind, self.delivered, self.identifier, payload), end_of(self.timeout))
        self._parts.clear()
        self._kept = None
        self._sent = self.identifier
        self.identifier = (self.identifier + 2) % 2**32
        self.delivered = 0

    def _answer(self, identifiers: Sequence[int | None]) -> tuple[int, bytes]:
        """The next answer to one of these commands, and to which."""
        end, due = end_of(self.timeout), f"an answer to {self._asked}"
        while True:
            message = self._commands.receive(end, due)
            if message.kind not in (Kind.Data, Kind.DataEnd, Kind.Interrupted):
                raise SessionError(str(message), due)
            if message.kind == Kind.Interrupted or message.parameter not in identifiers:
                continue
            self._parts += message.payload
            if message.kind == Kind.DataEnd:
                self.delivered = 1
                answer = bytes(self._parts)
                self._parts.clear()
                return message.parameter, answer

    def _settle(self) -> None:
        """Waits, for a second at most, until the last message is done: where no answer told so, a query behind it
        does. An answer that comes meanwhile is kept for `read`."""
        if self.delivered or self._sent is None:
            return
        last, asked, timeout, front = self._sent, self._asked, self.timeout, bytes(self._parts)
        self.delivered = 1  # so that the query interrupts no answer
        self.timeout = SETTLING if timeout is None else min(timeout, SETTLING)
        try:
            self.write(":SYST:ERR:COUN?")
            self._parts += front
            identifier, answer = self._answer([last, self._sent])
            if identifier == last:
                self._answer([self._sent])
                self._kept = answer
        except SessionError:
            pass  # it is held, or the connection has ended
        finally:
            self._sent, self._asked, self.timeout = last, asked, timeout

    # ---- status and service requests

    def read_stb(self) -> int:
        """The status byte, which waits for no command; its bit 6 tells of a service request once."""
        query = Message(Kind.AsyncStatusQuery, self.delivered, self._sent or 0)
        status = self._request(query, Kind.AsyncStatusResponse).control
        return status if self._kept is None else status | MESSAGE_AVAILABLE

    def wait_for_srq(self, timeout: float | None = 25000) -> int:
        """Waits for a service request, and gives the status byte that it tells."""
        if self.requests:
            return self.requests.pop(0)
        return self._wanted(self._events, Kind.AsyncServiceRequest, end_of(timeout)).control

    # ---- locks

    def lock_excl(self, timeout: float | str | None = "default") -> None:
        """Takes the exclusive lock, within so many milliseconds."""
        self._take_lock(timeout, "")

    def lock(self, timeout: float | str | None = "default", requested_key: str | None = None) -> str:
        """Takes a lock that is shared with all who give the same key, and gives that key."""
        key = uuid.uuid4().hex if requested_key is None else requested_key
        self._take_lock(timeout, key)
        return key

    def unlock(self) -> None:
        """Frees the exclusive lock, or where none is held the shared one, once the last message is done, or a second
        later."""
        self._settle()
        code = self._request(Message(Kind.AsyncLock), Kind.AsyncLockResponse).control
        if code not in (1, 2):
            raise SessionError(f"AsyncLockResponse {code} (no lock is held)", "a release")

    @contextlib.contextmanager
    def lock_context(self, timeout: float | str | None = "default",
                     requested_key: str | None = "exclusive") -> Iterator[str | None]:
        """Holds the exclusive lock, or with a key (None for a new one) a shared lock, while the block runs."""
        if requested_key == "exclusive":
            key = None
            self.lock_excl(timeout)
        else:
            key = self.lock(timeout, requested_key)
        try:
            yield key
        finally:
            self.unlock()

    def _take_lock(self, timeout: float | str | None, key: str) -> None:
        wait = self.timeout if timeout == "default" else timeout
        code = self._ask_lock(MOST_MILLISECONDS if wait is None else min(int(wait), MOST_MILLISECONDS), key.encode())
        if code != 1:
            why = "not in time" if code == 0 else "one is held already, or the key is too long"
            raise SessionError(f"AsyncLockResponse {code} ({why})", "a lock")

    def _ask_lock(self, milliseconds: int, key: bytes) -> int:
        """What is answered: 1 where the lock was granted, 0 where it wasn't in time, 3 for an error."""
        request = Message(Kind.AsyncLock, 1, milliseconds, key)
        return self._request(request, Kind.AsyncLockResponse, milliseconds).control

    # ---- the second connection

    def _request(self, request: Message, wanted: Kind, milliseconds: float = 0) -> Message:
        """Asks on the second connection; the instrument may take so many milliseconds more than the time limit."""
        end = end_of(None if self.timeout is None else self.timeout + milliseconds)
        self._events.send(request, end)
        self._owed.append(wanted)
        return self._wanted(self._events, wanted, end)

    def _wanted(self, wire: Wire, wanted: Kind, end: float | None) -> Message:
        """The next message of this kind. Service requests and interruptions before it are kept apart; answers come in
        the order of what was asked, so those that came too late for an earlier call are passed over."""
        while True:
            message = wire.receive(end, wanted.name)
            was_owed = self._owed[:1] == [message.kind]
            if was_owed:
                self._owed.pop(0)
            if message.kind == wanted and wanted not in self._owed:
                return message
            if message.kind == Kind.AsyncServiceRequest:
                self.requests.append(message.control)
            elif message.kind == Kind.AsyncInterrupted:
                self.interruptions.append(message.parameter)
            elif not was_owed:
                raise SessionError(str(message), wanted.name)


if __name__ == "__main__":
    from terminal import terminal
    if len(sys.argv) > 3 or not all(word.isdecimal() for word in sys.argv[1:2]):
        sys.exit("use: swm.py [PORT [HOST]]")
    sys.exit(terminal(*map(int, sys.argv[1:2]), *sys.argv[2:]))
