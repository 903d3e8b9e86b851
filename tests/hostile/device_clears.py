"""Device clears beside an answer, in mid-message, and of a command that waits."""
from support.checking import same
from support.hislip import QUERY, message
from support.scpi import IDENTITY
from common import END_OF_SCAN, WAITING_SCAN


def check_clear(served, query):
    """A device clear in mid-query: nothing of the query is left."""
    client = served.join()
    client.commands.sendall(query)
    client.clear()
    same("identity", client.query("*IDN?"), IDENTITY)
    client.close()


def check_clear_of_held(served):
    """A device clear gives a command up that waits for the end of a scan."""
    scanner, client = served.join(), served.join()
    scanner.write(WAITING_SCAN)
    scanner.query("*STB?")
    client.write("*OPC?")
    client.clear()
    same("identity", client.query("*IDN?"), IDENTITY)
    same("the end of the scan", scanner.query(END_OF_SCAN), "1")
    scanner.close()
    client.close()


CHECKS = [
    ("a clear of an answer", check_clear, QUERY),
    ("a clear of a part", check_clear, message(6, 0, 0, b"ROUT:OPEN")),
    ("a clear in mid-message", check_clear, message(7, 0, 0, b"*IDN?;*OPC?")),
    ("a clear of a held command", check_clear_of_held),
]
