"""The program with cards of its own, from a client's first message to the board's last line."""
import time

from support.checking import PATIENCE, Failure, same, within
from support.own_cards import PipedMeter, own_cards
from support.scpi import IDENTITY
from support.server import END
from support.sessions import Client


def cards_of_ones_own(_program):
    readings = lambda meter: meter.write_text("7\nover\n")
    with own_cards(readings) as (server, port, board, _), Client(port, timeout=PATIENCE * 1_000) as client:
        same("identity", client.query("*IDN?"), IDENTITY)
        client.write("ROUT:CLOS (@3!1:3!3)")
        client.write("ROUT:CLOS (@1!8);CLOS (@2!1)")
        same("a clash of both multiplexers", client.query("SYST:ERR?"), '-221,"Settings conflict"')
        same("closed", client.query("ROUT:CLOS:STAT?"), "(@1!8,3!1,3!2,3!3)")
        same("scan", client.query("ROUT:OPEN (@1!8);SCAN (@1!1,2!1);:TRIG:COUN 2;:READ?"),
             "0.000000007,9.9E+37")
        with within(END, "the end"):
            server.stdin.close()
            same("status", server.wait(PATIENCE), 0)
        sent = board.read_text().splitlines()
        same("the last of each board", sorted(sent[-3:]), ["1 off", "2 off", "3 off"])
        same("what the boards were told", [line for line in sent if "off" not in line],
             ["3 close 1", "3 close 2", "3 close 3", "1 close 8", "1 open 8",
              "1 close 1", "1 open 1", "2 close 1", "2 open 1"])


def a_scan_that_is_read_and_fails(_program):
    """The meter's second line is no reading: nothing of that scan is answered, and the next one is read."""
    readings = lambda meter: meter.write_text("7\nnone\n8\n9\n")
    with own_cards(readings) as (_server, port, _board, _), Client(port, timeout=PATIENCE * 1_000) as client:
        client.write("ROUT:SCAN (@1!1,2!1);:TRIG:COUN 2")
        same("nothing", client.query("READ?;:STAT:QUES:COND?;:SYST:ERR:ALL?"),
             '512;-240,"Hardware error",-230,"Data corrupt or stale"')
        same("the next", client.query("READ?;:STAT:QUES:COND?"), "0.000000008,0.000000009;0")


def settled(board, meter, closings, unread_at):
    """How long a position was closed before the meter's line was taken, and when that was still unread. The clock is
    looked at before each look at the board's file that finds no more closings than these, and again once the line is
    found taken, so the time is never told as less than it was."""
    open_at = unread_at
    end = unread_at + PATIENCE
    while unread_at < end:
        looked_at = time.monotonic()
        if board.read_text().count("close") <= closings:
            open_at = looked_at
        if not meter.is_unread():
            return time.monotonic() - open_at, unread_at
        unread_at = looked_at
        time.sleep(0.001)
    raise Failure("no reading is taken")


def a_position_is_read_once_it_has_settled(_program):
    """Each of five readings is taken 20 ms after the board was told to close its position."""
    with own_cards(PipedMeter) as (_server, port, board, meter), Client(port, timeout=PATIENCE * 1_000) as client:
        meter.tell(0)
        unread_at = time.monotonic()
        client.write("ROUT:SCAN (@1!1,2!3);:ROUT:CHAN:DEL 20 MS;:TRIG:COUN 5;:INIT")
        for reading in range(5):
            seconds, unread_at = settled(board, meter, reading, unread_at)
            if seconds < 0.02:
                raise Failure(f"reading {reading} is taken {seconds:.4f} s after its closing")
            meter.tell(reading + 1)
        same("readings", client.query("*OPC?;:FETC?"),
             "1;0.000000000,0.000000001,0.000000002,0.000000003,0.000000004")
        same("what the boards were told", [line for line in board.read_text().splitlines() if "off" not in line],
             ["1 close 1", "1 open 1", "2 close 3", "2 open 3", "1 close 1", "1 open 1",
              "2 close 3", "2 open 3", "1 close 1", "1 open 1"])


CHECKS = [cards_of_ones_own, a_scan_that_is_read_and_fails, a_position_is_read_once_it_has_settled]
