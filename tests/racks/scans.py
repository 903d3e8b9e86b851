"""The whole way: a rack's file, a server, a client, scans over a board with readings of a meter, looked at from outside."""
import time

from support.boards import LIMIT, bench
from support.checking import PATIENCE, Failure, same
from support.server import Served, Supervised
from support.sessions import Client


def client_of(served):
    return Client(served.port, timeout=PATIENCE * 1_000)


def closings_and_readings(program, folder):
    with bench(folder, ["+1.0E+00", "9.9E+37", "-2.5E-3"]) as (board, meter, path):
        with Supervised(program.path, "--rack", str(path)) as served:
            with client_of(served) as client:
                client.write("ROUT:CLOS (@1!3)")
                same("closed", client.query("ROUT:CLOS:STAT?"), "(@1!3)")
                same("on", board.on(), [2])
                client.write("ROUT:CLOS (@3!1)")
                same("a clash over slots", client.query("SYST:ERR?;:ROUT:CLOS:STAT?"), '-221,"Settings conflict";(@1!3)')
                same("readings", client.query("ROUT:OPEN:ALL;:ROUT:SCAN (@1!1,1!8,3!2);:TRIG:COUN 3;:READ?"),
                     "1.000000000,9.9E+37,-0.002500000")
                client.write("ROUT:CLOS (@1!5)")
                same("no error", client.query("SYST:ERR?"), '0,"No error"')
            served.end()
        same("on at the end", board.on(), [])
        same("the most at once", board.most, 1)
        same("what the meter was sent", meter.asked, ["*RST", "CONF:VOLT:DC 10", "READ?", "READ?", "READ?"])


def each_position_settles(program, folder):
    """The meter is asked 50 ms after the board has switched, and the relay is on until it has answered."""
    with bench(folder, ["1", "2"]) as (board, meter, path), Served(program.path, "--rack", str(path)) as served:
        seen = []
        board.noted = meter.noted = lambda what: seen.append((time.monotonic(), what))
        with client_of(served) as client:
            same("readings", client.query("ROUT:SCAN (@1!1,1!2);:ROUT:CHAN:DEL 50 MS;:TRIG:COUN 2;:READ?"),
                 "1.000000000,2.000000000")
        same("what was done", [what for _, what in seen], [[0], "read", [], [1], "read", []])
        for closed, read in ((0, 1), (3, 4)):
            if seen[read][0] - seen[closed][0] < 0.05:
                raise Failure(f"a reading {seen[read][0] - seen[closed][0]:.3f} s after its closing")


def status_is_told_while_a_board_is_awaited(program, folder):
    """Beside a board that answers late, a status query is answered at once."""
    with bench(folder) as (board, _, path), Served(program.path, "--rack", str(path)) as served:
        with client_of(served) as client, client_of(served) as other:
            board.is_silent = True
            client.write("ROUT:CLOS (@1!3)")
            began = time.monotonic()
            other.read_stb()
            if time.monotonic() - began > LIMIT / 2:
                raise Failure(f"a status query took {time.monotonic() - began:.2f} s")


def a_service_opens_every_relay(program, folder):
    """A server that is killed leaves relays as they are; `off` opens them."""
    with bench(folder) as (board, _, path):
        with Served(program.path, "--rack", str(path)) as served, client_of(served) as client:
            client.write("ROUT:CLOS (@1!3)")
            client.query("*OPC?")
            served.process.kill()
            served.process.wait(PATIENCE)
        same("on after it was killed", board.on(), [2])
        same("status", program.run(["off", "--rack", str(path)]).returncode, 0)
        same("on", board.on(), [])


def a_file_of_simulated_cards_serves_without_a_board(program, folder):
    path = folder / "rack.toml"
    path.write_text('version = 1\n[slot.16]\ncard = "relays"\ndriver = "simulated"\nchannels = 99\n')
    with Served(program.path, "--rack", str(path)) as served, client_of(served) as client:
        client.write("ROUT:CLOS (@16!1:16!99)")
        same("closed", client.query("ROUT:CLOS? (@16!99,16!1)"), "1,1")


CHECKS = [closings_and_readings, each_position_settles, status_is_told_while_a_board_is_awaited,
          a_service_opens_every_relay, a_file_of_simulated_cards_serves_without_a_board]
