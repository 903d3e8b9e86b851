"""`examples/service`: what it makes of signals and of a server that can't begin or is killed, what it tells systemd."""
import contextlib
import os
import pathlib
import re
import signal
import socket
import subprocess
import tempfile

from support import EXAMPLES
from support.checking import PATIENCE, SOON, same, wait_until, within
from support.own_cards import own_cards
from support.scpi import IDENTITY
from support.server import END, free_port, is_refused
from support.sessions import Client

SERVICE = EXAMPLES / "service"
SIGNALS = [signal.SIGTERM, signal.SIGINT, signal.SIGHUP]


@contextlib.contextmanager
def systemd():
    """A socket as systemd's, and the environment that names it."""
    with tempfile.TemporaryDirectory() as folder, socket.socket(socket.AF_UNIX, socket.SOCK_DGRAM) as told:
        told.bind(f"{folder}/notify")
        told.settimeout(PATIENCE)
        yield told, {**os.environ, "NOTIFY_SOCKET": f"{folder}/notify"}


@contextlib.contextmanager
def service(words, **options):
    """The service, and the server that it started."""
    with subprocess.Popen(words, stdin=options.pop("stdin", subprocess.DEVNULL), stderr=subprocess.PIPE, text=True,
                          **options) as process:
        children = pathlib.Path(f"/proc/{process.pid}/task/{process.pid}/children")
        try:
            wait_until("a server", lambda: process.poll() is not None or children.read_text())
            yield process, [int(child) for child in children.read_text().split()]
        finally:
            process.kill()


@contextlib.contextmanager
def serving(program, told, environment, *words):
    """The service, its server and its port, once it listens."""
    port = free_port()
    words = words or (SERVICE, program)
    with service([*words, "--port", str(port)], env=environment) as (process, servers):
        same("what it says", process.stderr.readline(), f"mainframe: listening on 127.0.0.1:{port}\n")
        same("what systemd gets", told.recv(100), b"READY=1")
        yield process, servers[0], port


def check_end(process, told, port):
    same("what systemd gets", told.recv(100), b"STOPPING=1")
    same("status", process.wait(PATIENCE), 0)
    same("whether connections are refused", is_refused(port), True)


def each_signal_ends_the_service(program):
    for number in SIGNALS:
        with systemd() as (told, environment), serving(program, told, environment) as (process, _, port):
            with Client(port, timeout=PATIENCE * 1_000) as client:
                same("identity", client.query("ROUT:CLOS (@1!3);*IDN?"), IDENTITY)
            with within(END, f"the end by signal {number}"):
                process.send_signal(number)
                check_end(process, told, port)


def each_signal_opens_the_relays(program):
    """Of the program with cards of its own, whose relays are lines of a file, while one of them is closed."""
    for number in SIGNALS:
        readings = lambda meter: meter.write_text("7\n")
        with own_cards(readings) as (server, port, board, _), tempfile.TemporaryDirectory() as folder:
            server.stdin.close()
            server.wait(PATIENCE)
            board.write_text("")
            path = pathlib.Path(folder, "program")  # which has the words of `serve`
            path.write_text(f'#!/bin/sh\nshift 2\nexec "{server.args[0]}" "$@"\n')
            path.chmod(0o755)
            with service([SERVICE, path, *map(str, server.args[1:])]) as (process, _):
                wait_until("a server", lambda: not is_refused(port))
                with Client(port, timeout=PATIENCE * 1_000) as client:
                    same("done", client.query("ROUT:CLOS (@3!1,1!8);CLOS:STAT?"), "(@1!8,3!1)")
                process.send_signal(number)
                same("status", process.wait(PATIENCE), 0)
            lines = board.read_text().splitlines()
            same("the last of each board", sorted(lines[-3:]), ["1 off", "2 off", "3 off"])
            same("what the boards were told", lines[3:5], ["3 close 1", "1 close 8"])


def the_unit(program):
    """Its command is begun, reloaded and ended as systemd does, which sends SIGTERM to service and server alike."""
    unit = (EXAMPLES / "mainframe.service").read_text()
    start = re.search(r"^ExecStart=(.*)$", unit, re.M)[1].split()
    same("kind", re.findall(r"^(?:Type|KillMode)=(.*)$", unit, re.M), ["notify"])
    same("reload", re.search(r"^ExecReload=(.*)$", unit, re.M)[1], "/bin/kill -USR1 $MAINPID")
    same("command", [pathlib.Path(word).name for word in start[:2]], ["service", "mainframe"])
    words = [SERVICE, program, *start[2:]]
    with systemd() as (told, environment), serving(program, told, environment, *words) as (process, server, port):
        with Client(port, timeout=PATIENCE * 1_000) as client:
            os.kill(server, signal.SIGTERM)
            same("identity", client.query("ROUT:CLOS (@1!3);*IDN?"), IDENTITY)
            process.send_signal(signal.SIGUSR1)
            same("what it says", process.stderr.readline(), "mainframe: aborted, every relay is open\n")
            same("what is closed", client.query("ROUT:CLOS:STAT?"), "(@)")
        os.kill(server, signal.SIGTERM)
        process.terminate()
        check_end(process, told, port)


def a_service_whose_port_is_taken(program):
    with socket.create_server(("127.0.0.1", 0)) as taken, systemd() as (told, environment):
        port = taken.getsockname()[1]
        done = subprocess.run([SERVICE, program, "--port", str(port)], stdin=subprocess.DEVNULL, env=environment,
                              capture_output=True, text=True, timeout=PATIENCE)
        same("status", done.returncode, 1)
        same("lines", [line[:25] for line in done.stderr.splitlines()],
             ["mainframe: cannot listen", f"mainframe: 127.0.0.1:{port}"[:25]])
        told.setblocking(False)
        with contextlib.suppress(BlockingIOError):
            same("what systemd gets", told.recv(100), None)


def a_service_whose_server_is_killed(program):
    with systemd() as (told, environment), serving(program, told, environment) as (process, server, port):
        with within(SOON, "the end of the service"):
            os.kill(server, signal.SIGKILL)
            same("status", process.wait(PATIENCE), 128 + signal.SIGKILL)


def a_service_that_is_killed(program):
    """Its server ends by itself."""
    with systemd() as (told, environment), serving(program, told, environment) as (process, _, port):
        process.kill()
        wait_until("the end of the server", lambda: is_refused(port))


def a_service_without_a_program(_):
    done = subprocess.run([SERVICE, "/no/such/program"], capture_output=True, text=True, timeout=PATIENCE)
    same("status and line", (done.returncode, done.stderr),
         (1, "service: /no/such/program: No such file or directory\n"))


def a_service_passes_lines_on(_):
    """What is typed, `abort` at SIGUSR1, and the end of what is typed."""
    with tempfile.TemporaryDirectory() as folder:
        path = pathlib.Path(folder, "program")
        path.write_text('#!/bin/sh\necho "$@" >&2\nexec cat >&2\n')
        path.chmod(0o755)
        with service([SERVICE, path, "--log"], stdin=subprocess.PIPE) as (process, _):
            same("words", process.stderr.readline(), "serve --until-end-of-input --log\n")
            process.stdin.write("typed\n")
            process.stdin.flush()
            same("a line", process.stderr.readline(), "typed\n")
            process.send_signal(signal.SIGUSR1)
            same("a line", process.stderr.readline(), "abort\n")
            process.stdin.close()
            same("status", process.wait(PATIENCE), 0)


CHECKS = [
    each_signal_ends_the_service, each_signal_opens_the_relays, the_unit,
    a_service_whose_port_is_taken, a_service_whose_server_is_killed, a_service_that_is_killed,
    a_service_without_a_program, a_service_passes_lines_on,
]
