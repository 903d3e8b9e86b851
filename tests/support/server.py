"""`mainframe serve` as a process on a free port."""
import os
import pathlib
import socket
import subprocess
import threading

from swm import SessionError

from support.checking import PATIENCE, Failure, same, wait_until, within
from support.scpi import IDENTITY
from support.sessions import Client

SESSIONS = 16
END = 2  # seconds within which a server ends after its input
CANNOT_LISTEN = "mainframe: cannot listen\n"
MOST_PORTS = 5  # that are tried, one after another, where each is taken meanwhile
AT_LAST = 5  # seconds within which what is promised within two is done on a slow machine too


def free_port(host="127.0.0.1"):
    family = socket.AF_INET6 if ":" in host else socket.AF_INET
    with socket.create_server((host, 0), family=family) as free:
        return free.getsockname()[1]


def is_refused(port):
    """Whether no connection is taken at this port."""
    with socket.socket() as wire:
        return bool(wire.connect_ex(("127.0.0.1", port)))


class Served:
    """The program, which serves on `port` until the block ends."""

    def __init__(self, program, *words, host="127.0.0.1", stdin=subprocess.DEVNULL, **options):
        self.program, self.remarks = program, [CANNOT_LISTEN]
        tries = 0
        while self.remarks[0] == CANNOT_LISTEN and tries < MOST_PORTS:
            tries += 1
            self.start(free_port(host), words, stdin, options)
        if not self.remarks[0].endswith(f":{self.port}\n"):
            self.process.kill()
            raise Failure(f"the program says {self.remarks[0]!r} in place of its address")
        self.reader = threading.Thread(target=lambda: self.remarks.extend(self.process.stderr), daemon=True)
        self.reader.start()

    def start(self, port, words, stdin, options):
        """Starts it at this port, which somebody else may have taken meanwhile, and hears its first line."""
        self.port, words = port, [self.program, "serve", "--port", str(port), *words]
        self.process = subprocess.Popen(words, stdin=stdin, stderr=subprocess.PIPE, text=True, **options)
        self.remarks = [self.process.stderr.readline()]

    def __enter__(self):
        return self

    def __exit__(self, *_):
        self.process.kill()
        self.process.wait()
        self.reader.join()

    def check_alive(self):
        if self.process.poll() is not None:
            raise Failure(f"the program ended with status {self.process.returncode}: {''.join(self.remarks[1:])!r}")

    def entry(self, name):
        """A number of /proc/PID/status."""
        self.check_alive()
        for line in pathlib.Path(f"/proc/{self.process.pid}/status").read_text().splitlines():
            if line.startswith(f"{name}:"):
                return int(line.split()[1])
        raise Failure(f"there is no {name}")

    def threads(self):
        return self.entry("Threads")

    def resident(self):
        """Memory in kB."""
        return self.entry("VmRSS")

    def worked(self):
        """For how many seconds its threads have had a processor."""
        self.check_alive()
        words = pathlib.Path(f"/proc/{self.process.pid}/stat").read_text().rpartition(")")[2].split()
        return (int(words[11]) + int(words[12])) / os.sysconf("SC_CLK_TCK")

    def descriptors(self):
        """How many are open."""
        self.check_alive()
        return len(os.listdir(f"/proc/{self.process.pid}/fd"))

    def await_end_of_others(self, descriptors, threads):
        """Waits until no more than these are left, so that all other connections are over."""
        wait_until(f"the end of all but {descriptors} descriptors", lambda: self.descriptors() <= descriptors)
        wait_until(f"the end of all but {threads} threads", lambda: self.threads() <= threads)

    def connect(self):
        return socket.create_connection(("127.0.0.1", self.port), PATIENCE)

    def join(self, kind=None):
        """A session, which may have to wait until one that was broken off has left."""
        joined = []

        def tries():
            try:
                joined.append((kind or Client)(self.port, timeout=PATIENCE * 1_000))
            except SessionError as refusal:
                if "FatalError 4" not in str(refusal):
                    raise
            return joined

        wait_until("a free session", tries)
        return joined[0]

    def check_free(self, others=0):
        """All sessions but these others can be joined."""
        for client in [self.join() for _ in range(SESSIONS - others)]:
            client.close()

    def check_sessions(self, others=0):
        """All sessions but these others can be joined and answer."""
        clients = [self.join() for _ in range(SESSIONS - others)]
        for client in clients:
            same("identity", client.query("*IDN?"), IDENTITY)
        for client in clients:
            client.close()


class Supervised(Served):
    """A server that ends with its input."""

    def __init__(self, program, *words):
        super().__init__(program, "--until-end-of-input", *words, stdin=subprocess.PIPE)

    def types(self, text):
        self.process.stdin.write(text)
        self.process.stdin.flush()

    def end(self):
        """Ends the input: the server ends in time, says nothing more, and no connection is left."""
        with within(END, "the end"):
            self.process.stdin.close()
            same("status", self.process.wait(PATIENCE), 0)
        self.reader.join()
        if not is_refused(self.port):
            raise Failure("connections are still taken")


def beside_a_session(program, check):
    """A check over a server of its own, whose session 1 is another's."""
    with Served(program) as served, served.join():
        check(served)
        served.check_alive()
