"""Servers that can't begin, and connections that can't be taken. Each check takes the program and rounds."""
import resource
import subprocess
import time

from support.checking import Failure, same
from support.scpi import IDENTITY
from support.server import AT_LAST, Served, free_port, is_refused

ACCEPTS = 24


def closed_descriptor(descriptor, *words):
    """A check that a server with one of the first three descriptors closed does not begin, and says so on the third."""
    def check(program, _rounds):
        port = free_port()
        command = f'exec "$0" serve --port {port} "$@" {descriptor}>&-'
        with subprocess.Popen(["sh", "-c", command, program, *words], stdin=subprocess.PIPE, stdout=subprocess.PIPE,
                              stderr=subprocess.PIPE, text=True) as server:
            try:
                status = server.wait(AT_LAST)
            except subprocess.TimeoutExpired as still:
                server.kill()
                bound = not is_refused(port)
                raise Failure("it runs" + " and takes connections" * bound) from still
            told = server.stderr.read()
            same("status", status, 1)
            same("lines", told.count("\n"), 0 if descriptor == 2 else 1)
            same("whose line", told[:11], "" if descriptor == 2 else "mainframe: ")
            if "listening" in told:
                raise Failure(f"it says {told!r}")
    return check


def failed_accepts_are_logged(program, _rounds):
    """Where the server has no descriptor left, its log says so, once a second at most."""
    limited = lambda: resource.setrlimit(resource.RLIMIT_NOFILE, (16, 16))
    began = time.monotonic()
    with Served(program, "--log", preexec_fn=limited) as served:
        crowd = [served.connect() for _ in range(ACCEPTS)]
        time.sleep(1.5)
        for wire in crowd:
            wire.close()
        with served.join() as client:
            same("identity", client.query("*IDN?"), IDENTITY)
        seconds = time.monotonic() - began
        told = [line for line in served.remarks if line == "mainframe: a connection could not be taken\n"]
        if not 1 <= len(told) <= seconds + 1:
            raise Failure(f"{len(told)} lines in {seconds:.1f} s tell of failed accepts")


def checks():
    """Each check by its name."""
    for descriptor in range(3):
        yield f"descriptor {descriptor} closed", closed_descriptor(descriptor, "--log")
        yield f"descriptor {descriptor} closed, until the end", closed_descriptor(descriptor, "--until-end-of-input")
    yield "failed accepts are logged", failed_accepts_are_logged
