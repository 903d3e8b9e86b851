"""How many connections a server takes, one after another. Each check has a server on which another has session 1."""
import concurrent.futures
import socket
import struct

from support.checking import same
from support.hislip import check_end, fatal, receive_bytes
from support.scpi import IDENTITY

AT_ONCE = 8
SIXTEEN_BITS = 1 << 16  # connections


def come_and_go(served, count):
    """So many connections, one after another, each of which is told that it sent no header, and ended."""
    for _ in range(count):
        with served.connect() as wire:
            wire.sendall(bytes(16))
            same("FatalError", receive_bytes(wire, 16), fatal(1))
            check_end(wire)
            wire.setsockopt(socket.SOL_SOCKET, socket.SO_LINGER, struct.pack("ii", 1, 0))


def more_connections_than_sixteen_bits_count(served):
    """The next one is served too."""
    with concurrent.futures.ThreadPoolExecutor(AT_ONCE) as pool:
        for going in [pool.submit(come_and_go, served, SIXTEEN_BITS // AT_ONCE) for _ in range(AT_ONCE)]:
            going.result()
    with served.join() as client:
        same("identity", client.query("*IDN?"), IDENTITY)


CHECKS = [more_connections_than_sixteen_bits_count]
