"""The address that a server listens on, its log of connections, all readings, and what holds no session up."""
import contextlib
import re
import resource
import select
import socket
import subprocess
import time

from swm import SessionError

from support.checking import PATIENCE, SOON, Failure, same, within
from support.hislip import BEGIN, check_end, message, receive
from support.scpi import ALL_READINGS, IDENTITY, MOST_READINGS, SCAN
from support.server import Served, Supervised, is_refused
from support.sessions import Client

PAUSE = 0.2  # seconds
MOST_WITHOUT_SESSION = 64  # connections


def another_address(program):
    with Served(program, "--address", "127.0.0.2", host="127.0.0.2") as served:
        same("what it says", served.remarks[0], f"mainframe: listening on 127.0.0.2:{served.port}\n")
        if not is_refused(served.port):
            raise Failure("the usual address is served too")
        with Client(served.port, "127.0.0.2") as client:
            same("identity", client.query("*IDN?"), IDENTITY)


def an_address_of_version_six(program):
    if not socket.has_ipv6:
        return
    with Served(program, "--address", "::1", host="::1") as served:
        same("what it says", served.remarks[0], f"mainframe: listening on [::1]:{served.port}\n")
        socket.create_connection(("::1", served.port), PATIENCE).close()


def the_log_of_connections(program):
    with Supervised(program, "--log") as served:
        with served.join() as client:
            same("identity", client.query("*IDN?"), IDENTITY)
        with served.connect() as wire:
            wire.sendall(b"GET / HTTP/1.0\r\n")
            same("FatalError", receive(wire).kind, 2)
        with served.connect() as wire:
            wire.sendall(message(6, 0, 0, b"*RST"))
            same("FatalError", receive(wire).kind, 2)
        with served.connect() as wire:
            wire.sendall(BEGIN + BEGIN)
            same("InitializeResponse and FatalError", (receive(wire).kind, receive(wire).kind), (1, 2))
            check_end(wire)
        clients = [served.join() for _ in range(16)]
        try:
            Client(served.port)
            raise Failure("a seventeenth session")
        except SessionError:
            pass
        served.end()
        for client in clients:
            client.close()
    check_remarks("".join(served.remarks[1:]))


def check_remarks(told):
    """The log names each connection once as it comes and once as it goes, in order, and nothing else."""
    coming = re.findall(r"^mainframe: connection (\d+) from 127\.0\.0\.1:\d+$", told, re.M)
    leaving = re.findall(r"^mainframe: connection (\d+) (?:left|refused): (.*)$", told, re.M)
    joining = re.findall(r"^mainframe: connection (\d+) joined as session (\d+)$", told, re.M)
    same("lines", len(coming) + len(leaving) + len(joining), told.count("\n"))
    same("numbers", coming, [str(number) for number in range(1, len(coming) + 1)])
    same("who left", sorted(int(number) for number, _ in leaving), list(range(1, len(coming) + 1)))
    why = dict(leaving)
    same("the first session", [it for it in joining if it[0] in ("1", "2")], [("1", "1"), ("2", "1")])
    same("no header", why["3"], "broken header")
    same("a message before its time", why["4"], "FatalError 3")
    same("a second Initialize", why["5"], "FatalError 3")
    same("one too many", sorted(why.values()).count("full"), 1)
    sessions = sorted(int(session) for number, session in joining if number != "5")
    same("sessions", sessions, sorted([1, 1, *range(1, 17), *range(1, 17)]))


def the_log_of_a_crowd(program):
    """One more connection than may be without a session is closed at once, and the log says why."""
    with Supervised(program, "--log") as served, contextlib.ExitStack() as opened:
        crowd = [opened.enter_context(served.connect()) for _ in range(MOST_WITHOUT_SESSION + 1)]
        closed, _, _ = select.select(crowd, [], [], PATIENCE)
        same("what it reads", [it.recv(1) for it in closed], [b""])
        served.end()
    why = re.findall(r"^mainframe: connection \d+ ((?:left|refused): .*)$", "".join(served.remarks[1:]), re.M)
    same("why they ended", sorted(why), MOST_WITHOUT_SESSION * ["left: end"] + ["refused: full"])


def an_answer_of_all_readings(program):
    """More than a million bytes, over both ways."""
    typed = f"{SCAN.format(count=MOST_READINGS)}\nFETC?\n"
    done = subprocess.run([program, "run"], input=typed, text=True, capture_output=True, timeout=PATIENCE)
    if done.stdout != f"1\n{ALL_READINGS}\n":
        raise Failure("`run` does not answer all readings")
    with Served(program) as served, served.join() as client:
        same("scan", client.query(SCAN.format(count=MOST_READINGS)), "1")
        if client.query("FETC?") != ALL_READINGS:
            raise Failure("`serve` does not answer all readings")


def a_pause_holds_no_session_up(program):
    """Another thread waits it out, so that its own session is answered meanwhile."""
    with Served(program) as served, served.join(), served.join() as client:
        client.write("TRIG:DEL 5;:ROUT:SCAN (@1!1);:INIT")
        with within(SOON, "an answer beside a pause"):
            same("identity", client.query("*IDN?"), IDENTITY)
            client.write("ABOR")


def a_pause_lasts_its_time(program):
    """Two readings, each behind a pause, which ends once its time is over."""
    with Served(program) as served, served.join() as client:
        client.query(f"ROUT:SCAN (@1!1);:TRIG:COUN 2;DEL {PAUSE};*OPC?")
        began = time.monotonic()
        same("the end of the scan", client.query("INIT;*OPC?;:TRAC:POIN:ACT?"), "1;2")
        seconds = time.monotonic() - began
        if seconds < 2 * PAUSE:
            raise Failure(f"two pauses of {PAUSE} s are over after {seconds:.3f} s")


def accepts_that_fail_are_over_soon(program):
    """Where the server has no descriptor left, connections wait, and are served once there are some."""
    limited = lambda: resource.setrlimit(resource.RLIMIT_NOFILE, (16, 16))
    with Served(program, preexec_fn=limited) as served:
        crowd = [served.connect() for _ in range(24)]
        time.sleep(0.5)
        for wire in crowd:
            wire.close()
        with within(2 * SOON, "the next session"), served.join() as client:
            same("identity", client.query("*IDN?"), IDENTITY)


CHECKS = [
    another_address, an_address_of_version_six, the_log_of_connections, the_log_of_a_crowd, an_answer_of_all_readings,
    a_pause_holds_no_session_up, a_pause_lasts_its_time, accepts_that_fail_are_over_soon,
]
