"""Clients that vanish while their command, or their request for a lock, waits, and those that send more meanwhile."""
import time

from support.checking import same
from support.hislip import receive, send
from support.scpi import IDENTITY
from support.server import SESSIONS
from common import END_OF_SCAN, WAITING_SCAN

LOOKS = 0.3  # seconds in which the server looks at a line more than once


def check_vanished_beside_scan(served):
    """Sessions that wait for the end of a scan, and whose clients vanish, leave."""
    scanner = served.join()
    scanner.write(WAITING_SCAN)
    scanner.query("*STB?")
    for _ in range(SESSIONS):
        client = served.join()
        client.write("*OPC?;:ROUT:CLOS (@2!1)")
        client.close()
    served.check_sessions(2)
    same("the end of the scan, a relay", scanner.query(f"{END_OF_SCAN};:ROUT:CLOS? (@2!1)"), "1;0")
    scanner.close()


def check_vanished_beside_lock(served):
    """Sessions that wait for a lock with a command, a request or both leave as their clients vanish, and do nothing."""
    holder = served.join()
    same("lock", holder.lock(0), 1)
    for number in range(3 * SESSIONS):
        client = served.join()
        if number % 3:
            send(client.events, 4, 1, 2**32 - 1)
        if number % 3 != 1:
            client.write("ROUT:CLOS (@1!1)")
        client.close()
        if number % SESSIONS == SESSIONS - 3:
            served.check_free(2)
    served.check_free(2)
    same("release", holder.release(), 1)
    same("relay", holder.query("ROUT:CLOS? (@1!1)"), "0")
    holder.close()


def check_more_beside_scan(served):
    """A session that waits for the end of a scan, and whose client sends more, stays, and answers both then."""
    scanner, client = served.join(), served.join()
    scanner.write(WAITING_SCAN)
    scanner.query("*STB?")
    client.write("*OPC?")
    time.sleep(LOOKS)
    client.delivered = 1
    client.write("*IDN?")
    time.sleep(LOOKS)
    same("the end of the scan", scanner.query(END_OF_SCAN), "1")
    same("answers", [receive(client.commands).payload for _ in range(2)], [b"1\n", f"{IDENTITY}\n".encode()])
    scanner.close()
    client.close()


def check_more_beside_lock(served):
    """A session that waits for a lock, and whose client sends more behind that, stays, and answers both then."""
    holder, client = served.join(), served.join()
    same("lock", holder.lock(0), 1)
    send(client.events, 4, 1, 2**32 - 1)
    time.sleep(LOOKS)
    send(client.events, 21)
    time.sleep(LOOKS)
    same("release", holder.release(), 1)
    same("answers", [receive(client.events).kind for _ in range(2)], [5, 22])
    same("identity", client.query("*IDN?"), IDENTITY)
    holder.close()
    client.close()


CHECKS = [
    ("clients that vanish beside a scan", check_vanished_beside_scan),
    ("clients that vanish beside a lock", check_vanished_beside_lock),
    ("a client that sends more beside a scan", check_more_beside_scan),
    ("a client that sends more beside a lock", check_more_beside_lock),
]
