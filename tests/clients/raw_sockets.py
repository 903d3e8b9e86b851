"""`examples/raw_socket.py` before a served program: plain sockets, and clients of others where they are installed."""
import contextlib
import shutil
import socket
import struct
import subprocess
import sys
import threading

from support import EXAMPLES
from support.checking import PATIENCE, SOON, Failure, same, wait_until, within
from support.hislip import check_end
from support.scpi import IDENTITY
from support.server import Served

DOOR = EXAMPLES / "raw_socket.py"
MANY = 2_000  # lines that a client sends before it reads
SYSTEM_PYTHON = "/usr/bin/python3"  # for which Debian's packages are
PYVISA = """
import pyvisa
name = "TCPIP::127.0.0.1::%d::SOCKET"
with pyvisa.ResourceManager("@py").open_resource(name, read_termination="\\n", write_termination="\\n") as mainframe:
    print(mainframe.query("*IDN?"))
    mainframe.write("ROUT:CLOS (@1!3)")
    print(mainframe.query("ROUT:CLOS:STAT?"))
    print(mainframe.query_ascii_values("ROUT:OPEN:ALL;:ROUT:SCAN (@1!1,1!2);:TRIG:COUN 3;:READ?"))
    mainframe.write("ROUT:CLOS (@2!3)")
"""


@contextlib.contextmanager
def raw_socket(port):
    """The door before a server at this port, and the door's port."""
    with subprocess.Popen([sys.executable, DOOR, "0", str(port)], stdout=subprocess.PIPE, stderr=subprocess.PIPE,
                          text=True) as door:
        try:
            yield door, int(door.stdout.readline().rpartition(":")[2])
        finally:
            door.kill()


@contextlib.contextmanager
def behind_a_door(program):
    with Served(program) as served, raw_socket(served.port) as (_, port):
        yield served, port


def connect(port):
    return socket.create_connection(("127.0.0.1", port), PATIENCE)


def rest(wire):
    """All that comes once nothing more is sent."""
    wire.shutdown(socket.SHUT_WR)
    with wire.makefile(encoding="ascii") as lines:
        return lines.read()


def answers_each_line_of_a_socket(program):
    with behind_a_door(program) as (_, port):
        with connect(port) as wire:
            wire.sendall(b"*IDN?\r\n\n*OPC?;:SYST:VERS?\nFOO\nSYST:ERR?")
            same("answers", rest(wire), f'{IDENTITY}\n1;1999.0\n-113,"Undefined header"\n')
        with connect(port) as wire:
            for byte in b"ROUT:CLOS (@2!7);CLOS:STAT?\n":
                wire.sendall(bytes([byte]))
            same("byte by byte", wire.recv(100), b"(@2!7)\n")
            with connect(port) as other:
                other.sendall(b"ROUT:CLOS:STAT?\n")
                same("another's answer", other.recv(100), b"(@2!7)\n")
            wire.sendall(b"*IDN?".ljust(70_000) + b"\nSYST:ERR?\n")
            same("a line that is too long", rest(wire), '-363,"Input buffer overrun"\n')


def answers_many_lines_of_a_socket(program):
    """Sent before any answer is read; and an answer of many readings."""
    with behind_a_door(program) as (_, port), connect(port) as wire:
        sending = threading.Thread(target=wire.sendall, args=[b"*IDN?\n" * MANY])
        sending.start()
        with wire.makefile(encoding="ascii") as lines:
            same("answers", {lines.readline() for _ in range(MANY)}, {f"{IDENTITY}\n"})
            sending.join()
            wire.sendall(b"ROUT:SCAN (@1!7);:TRAC:POIN 5000;:TRIG:COUN 5000;:READ?\n")
            same("readings", lines.readline().count(","), 4_999)


def does_the_last_line_of_a_socket(program):
    with behind_a_door(program) as (served, port), served.join() as other:
        for _ in range(20):
            other.query("ROUT:CLOS (@2!1);*OPC?")
            with connect(port) as wire:
                wire.sendall(b"ROUT:OPEN:ALL\n")
            wait_until("the last line", lambda: other.query("ROUT:CLOS:STAT?") == "(@)")


def ends_a_session_with_its_socket(program):
    """Also where its line is held: it is given up."""
    with behind_a_door(program) as (served, port), served.join() as other:
        descriptors, threads = served.descriptors(), served.threads()
        other.query("ROUT:SCAN (@1!1);:TRIG:SOUR BUS;:INIT;*STB?")
        with connect(port) as wire:
            wire.sendall(b"*IDN?\n*OPC?;:ROUT:CLOS (@2!7)\n")
            same("identity", wire.recv(100), f"{IDENTITY}\n".encode())
            wire.setsockopt(socket.SOL_SOCKET, socket.SO_LINGER, struct.pack("ii", 1, 0))
        with within(2 * SOON, "the end of the session"):
            served.await_end_of_others(descriptors, threads)
        same("what was held", other.query("ABOR;:ROUT:CLOS? (@2!7)"), "0")


def closes_a_socket_without_a_session(program):
    with Served(program) as served, raw_socket(served.port) as (door, port):
        everyone = [served.join() for _ in range(16)]
        with connect(port) as wire:
            check_end(wire)
        same("a line", "too many clients" in door.stderr.readline(), True)
        for client in everyone:
            client.close()
    with raw_socket(served.port) as (door, port), connect(port) as wire:
        check_end(wire)
        same("a line", door.stderr.readline()[:12], "raw_socket: ")


def ends_a_socket_with_the_server(program):
    with Served(program) as served, raw_socket(served.port) as (_, port), connect(port) as wire:
        wire.sendall(b"*IDN?\n")
        same("identity", wire.recv(100), f"{IDENTITY}\n".encode())
        served.process.kill()
        check_end(wire)


# ---- clients of others


def run(words):
    return subprocess.run(words, stdin=subprocess.DEVNULL, capture_output=True, text=True, timeout=PATIENCE)


def answers_lxi_tools(program):
    if not shutil.which("lxi"):
        print("lxi-tools is not installed: `lxi scpi` was not tried")
        return
    with behind_a_door(program) as (_, port):
        def lxi(text):
            done = run(["lxi", "scpi", "--address", "127.0.0.1", "--port", str(port), "--raw", text])
            same("status", done.returncode, 0)
            return done.stdout.strip()

        same("identity", lxi("*IDN?"), IDENTITY)
        same("a command", lxi("ROUT:CLOS (@1!3)"), "")
        wait_until("the command", lambda: lxi("ROUT:CLOS:STAT?") == "(@1!3)")  # each is a session of its own


def answers_pyvisa_by_a_socket(program):
    if run([SYSTEM_PYTHON, "-c", "import pyvisa_py"]).returncode:
        print("python3-pyvisa-py is not installed: PyVISA was not tried by a socket")
        return
    with behind_a_door(program) as (served, port), served.join() as other:
        done = run([SYSTEM_PYTHON, "-c", PYVISA % port])
        if done.stdout.splitlines() != [IDENTITY, "(@1!3)", "[1.0, 1.000000001, 1.000000002]"]:
            raise Failure(f"PyVISA prints {done.stdout!r} and {done.stderr[-200:]!r}")
        wait_until("its last line", lambda: other.query("ROUT:CLOS:STAT?") == "(@2!3)")


CHECKS = [
    answers_each_line_of_a_socket, answers_many_lines_of_a_socket, does_the_last_line_of_a_socket,
    ends_a_session_with_its_socket, closes_a_socket_without_a_session, ends_a_socket_with_the_server,
    answers_lxi_tools, answers_pyvisa_by_a_socket,
]
