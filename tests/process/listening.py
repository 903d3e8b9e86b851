"""`serve` as a process: where it can't listen, and that it serves until a signal stops it."""
import socket
import subprocess

from support.checking import PATIENCE, same
from support.hislip import BEGIN, message, receive_bytes
from support.process import ANSWERED
from support.server import free_port

CANNOT_LISTEN = b"mainframe: cannot listen\n"


def a_port_in_use(program):
    with socket.create_server(("127.0.0.1", 0)) as taken:
        port = taken.getsockname()[1]
        program.check(["serve", "--port", str(port)], b"", b"", 1, CANNOT_LISTEN + in_use("127.0.0.1", port))


def in_use(address, port):
    return f"mainframe: {address}:{port}: Address already in use (os error 98)\n".encode()


def an_address_of_another_machine(program):
    wanted = CANNOT_LISTEN + b"mainframe: 192.0.2.1:4880: Cannot assign requested address (os error 99)\n"
    program.check(["serve", "--address", "192.0.2.1"], b"", b"", 1, wanted)


def exchange(wire, sent, wanted):
    wire.sendall(sent)
    same("answer", receive_bytes(wire, len(wanted)), wanted)


def a_session(port):
    with socket.create_connection(("127.0.0.1", port), PATIENCE) as first, \
            socket.create_connection(("127.0.0.1", port), PATIENCE) as second:
        exchange(first, BEGIN, message(1, 0, 0x0100_0001))
        exchange(second, message(17, 0, 1), message(18, 0, 0x5357))
        exchange(first, message(7, 0, 0xffff_ff00, b"*IDN?\n"), message(7, 0, 0xffff_ff00, ANSWERED))


def a_session_over_the_network(program):
    """Until the program is stopped by a signal, it serves."""
    port = free_port()
    with subprocess.Popen([program.path, "serve", "--port", str(port)], stderr=subprocess.PIPE) as process:
        try:
            same("standard error", process.stderr.readline(), f"mainframe: listening on 127.0.0.1:{port}\n".encode())
            a_session(port)
            same("status", process.poll(), None)
        finally:
            process.terminate()


CHECKS = [a_port_in_use, an_address_of_another_machine, a_session_over_the_network]
