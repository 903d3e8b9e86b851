"""A release of a lock, and the messages that had arrived before it. Each check takes the program and rounds."""
import threading
import time

from support.checking import PATIENCE, same, tell
from support.hislip import program_message
from support.server import Served


def releases_come_behind_commands(program, rounds):
    """A command that was sent before a release acts before the next holder's, who waits for the lock."""
    wrong = 0
    with Served(program) as served, served.join() as first, served.join() as second:
        for _ in range(rounds * 10):
            same("lock", first.lock(0), 1)
            waiter = threading.Thread(target=second.lock, args=[PATIENCE * 1_000])
            waiter.start()
            time.sleep(0.002)
            first.commands.sendall(program_message("ROUT:OPEN (@2!3)"))
            same("release", first.release(), 1)
            waiter.join()
            same("under the lock", second.query("ROUT:CLOS (@2!3);*OPC?"), "1")
            same("release", second.release(), 1)
            same("behind its own command", first.query("*OPC?"), "1")
            wrong += second.query("ROUT:CLOS? (@2!3)") != "1"
    tell("a command acted after the next holder's", wrong, rounds * 10)


def checks():
    """Each check by its name."""
    yield "releases_come_behind_commands", releases_come_behind_commands
