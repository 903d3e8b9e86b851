#!/usr/bin/env python3
"""A raw SCPI socket in front of `mainframe serve`, for clients that know no HiSLIP: each line is a program message,
and each answer is a line. Each connection has a session of its own.

    examples/raw_socket.py [PORT [HISLIP_PORT [ADDRESS]]]

It listens on port 5025 of this machine alone, unless the words say otherwise, and serves until Ctrl-C. A line has no
place for locks, status queries, service requests and device clears, nor for a block with a line feed in it.
"""
from __future__ import annotations

import contextlib
import socket
import sys
import threading
from collections.abc import Iterator

from swm import PORT, Kind, Session, SessionError

RAW_PORT = 5025
MOST = 32_768  # bytes that are taken at a time
LAST = 10  # seconds for which answers still come when the client sends no more
OPTIONS = [(socket.SOL_SOCKET, socket.SO_KEEPALIVE, 1), (socket.IPPROTO_TCP, socket.TCP_NODELAY, 1),
           (socket.IPPROTO_TCP, socket.TCP_KEEPIDLE, 10), (socket.IPPROTO_TCP, socket.TCP_KEEPINTVL, 5),
           (socket.IPPROTO_TCP, socket.TCP_KEEPCNT, 3)]


class Talk(Session):
    """A session that one thread gives the text of a client, while another takes the answers."""
    _last: int | None = None  # the identifier of the message whose answer is the last one

    def give(self, text: bytes) -> None:
        """Sends what came; a line feed ends a message. No answer counts as interrupted."""
        for part in text.splitlines(keepends=True):
            self.delivered = 1
            self._command(Kind.DataEnd if part.endswith(b"\n") else Kind.Data, part)

    def give_last(self) -> None:
        """Ends a line that has no line feed, and asks for something whose answer is the last one."""
        self.delivered = 1
        self._command(Kind.DataEnd)
        self._last = self.identifier
        self.give(b":SYST:ERR:COUN?\n")

    def answers(self) -> Iterator[bytes]:
        """The parts of the answers, up to the last one."""
        while True:
            message = self._commands.receive(None, "an answer")
            if message.parameter == self._last:
                return
            yield message.payload

    def end(self) -> None:
        """Both threads go on, and the session ends."""
        with contextlib.suppress(OSError):
            self._commands.socket.shutdown(socket.SHUT_RDWR)
        self.end_at_once()


def pass_answers(client: socket.socket, talk: Talk) -> None:
    with contextlib.suppress(OSError):
        for part in talk.answers():
            client.sendall(part)
    with contextlib.suppress(OSError):
        client.shutdown(socket.SHUT_RDWR)


def serve(client: socket.socket, port: int) -> None:
    """Serves a connection to its end."""
    with client, contextlib.closing(Talk(port, timeout=10_000)) as talk:
        talk.timeout = None
        answering = threading.Thread(target=pass_answers, args=[client, talk], daemon=True)
        answering.start()
        with contextlib.suppress(OSError):
            while text := client.recv(MOST):
                talk.give(text)
            talk.give_last()
            answering.join(LAST)
        talk.end()
        answering.join()


def begin(client: socket.socket, port: int) -> None:
    for option in OPTIONS:
        client.setsockopt(*option)
    try:
        serve(client, port)
    except SessionError as fault:
        print(f"raw_socket: {fault}", file=sys.stderr, flush=True)


def main(raw_port: str = str(RAW_PORT), port: str = str(PORT), address: str = "127.0.0.1") -> int:
    with contextlib.suppress(KeyboardInterrupt), socket.create_server((address, int(raw_port))) as door:
        print(f"raw_socket: {address}:{door.getsockname()[1]}", flush=True)
        while True:
            client, _ = door.accept()
            threading.Thread(target=begin, args=[client, int(port)], daemon=True).start()
    return 0


if __name__ == "__main__":
    sys.exit(main(*sys.argv[1:]))
