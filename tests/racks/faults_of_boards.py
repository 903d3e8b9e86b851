"""What boards and meters do wrong, and networks: each ends with every relay open, or nothing closed."""
import re
import time

from support.boards import LIMIT, bench
from support.checking import PATIENCE, Failure, same, wait_until
from support.server import Served, Supervised
from support.sessions import Client

FAILED = '-240,"Hardware error"'


def served_by(program, path):
    return Served(program.path, "--rack", str(path))


def client_of(served):
    return Client(served.port, timeout=PATIENCE * 1_000)


def closed_then(client, list_, *steps):
    """Closes a list, does these steps, and gives what the errors are."""
    client.write(f"ROUT:CLOS {list_}")
    client.query("*OPC?")
    for step in steps:
        step()


def check_refused(client, what, command="ROUT:CLOS (@1!3)"):
    """The command fails, and nothing is closed by any card."""
    client.write(command)
    same(f"{what}: the error", client.query("SYST:ERR?;:ROUT:CLOS:STAT?"), f"{FAILED};(@)")


def check_good_again(client, board, what):
    """Once the board answers, one more command may fail; then all is as ever."""
    client.write("*CLS;*RST")
    wait_until(f"{what}: a closing", lambda: client.query("*CLS;:ROUT:CLOS (@1!6);CLOS:STAT?;:SYST:ERR:COUN?") == "(@1!6);0"
               or time.sleep(0.3))
    same(f"{what}: on", board.on(), [5])


def check_told(client, what, told):
    """What QUEStionable's condition and slot 1 tell of the relays, once no failure stands any more."""
    same(f"{what}: told", client.query("*RST;:STAT:QUES:COND?;:SYST:CTYP:STAT? 1"), told)


def a_board_whose_cable_is_out(program, folder):
    """While the board can't be asked, nothing is closed anywhere: the relay may be closed against its account."""
    with bench(folder) as (board, _, path), served_by(program, path) as served, client_of(served) as client:
        closed_then(client, "(@1!3)", board.unplug)
        check_refused(client, "the cable is out", "ROUT:OPEN (@1!3)")
        check_refused(client, "another card", "ROUT:CLOS (@3!1)")
        same("the relay is still on", board.on(), [2])
        check_told(client, "the cable is out", "512;UNS")
        board.plug()
        check_good_again(client, board, "the cable is in")
        check_told(client, "the cable is in", "0;SURE")
        served.check_alive()


def a_board_that_hangs(program, folder):
    with bench(folder) as (board, _, path), served_by(program, path) as served, client_of(served) as client:
        board.is_silent = True
        check_refused(client, "the board hangs")
        board.is_silent = False
        check_good_again(client, board, "it answers")


def a_board_that_lost_its_supply(program, folder):
    """The connection is new and the coil off: the board is found to differ, and isn't closed on top of it."""
    with bench(folder) as (board, _, path), served_by(program, path) as served, client_of(served) as client:
        closed_then(client, "(@1!3)", lambda: board.coils.__setitem__(2, False), board.hang_up)
        check_refused(client, "the coil is off", "ROUT:OPEN (@1!3)")
        check_good_again(client, board, "it was found")


def another_master(program, folder):
    """Somebody else switched a coil on: the next closing finds it, and all goes off."""
    with bench(folder) as (board, _, path), served_by(program, path) as served, client_of(served) as client:
        board.coils[7] = True
        check_refused(client, "a coil is on")
        same("on", board.on(), [])
        check_good_again(client, board, "all is off")


def an_idle_connection_that_ends(program, folder):
    """The board ends idle connections, as many do: nobody notices."""
    with bench(folder) as (board, _, path), served_by(program, path) as served, client_of(served) as client:
        closed_then(client, "(@1!3)", board.hang_up)
        client.write("ROUT:OPEN (@1!3);CLOS (@1!4)")
        same("no error", client.query("SYST:ERR?;:ROUT:CLOS:STAT?"), '0,"No error";(@1!4)')
        same("on", board.on(), [3])


def garbled_answers(program, folder):
    """An answer of another number, unit, function or coil, or one that is cut, confirms nothing."""
    spoilt = {
        "another number": lambda answer: bytes([answer[0] ^ 1]) + answer[1:],
        "another unit": lambda answer: answer[:6] + bytes([answer[6] ^ 1]) + answer[7:],
        "another function": lambda answer: answer[:7] + bytes([answer[7] ^ 2]) + answer[8:],
        "another coil": lambda answer: answer[:9] + bytes([answer[9] ^ 1]) + answer[10:],
        "cut": lambda answer: answer[:-1],
    }
    with bench(folder) as (board, _, path), served_by(program, path) as served, client_of(served) as client:
        for what, spoil in spoilt.items():
            board.spoil = spoil
            check_refused(client, what)
            board.spoil = lambda answer: answer
            check_good_again(client, board, what)
            client.write("*RST")


def a_late_answer_is_not_the_next_one(program, folder):
    """An answer that comes after its time does not confirm the command behind it."""
    with bench(folder) as (board, _, path), served_by(program, path) as served, client_of(served) as client:
        board.spoil = lambda answer: time.sleep(1.5 * LIMIT) or answer
        check_refused(client, "late")
        board.spoil = lambda answer: answer
        check_good_again(client, board, "in time")


def a_board_that_stops_in_a_scan(program, folder):
    with bench(folder, [f"{n}" for n in range(1, 2_000)]) as (board, _, path), \
            served_by(program, path) as served, client_of(served) as client:
        client.write("ROUT:SCAN (@1!1:1!8);:TRIG:COUN 1000;:INIT")
        wait_until("some readings", lambda: int(client.query("TRAC:POIN:ACT?")) > 20)
        board.unplug()
        same("the scan ends", client.query("*OPC?;:SYST:ERR?;:ROUT:CLOS:STAT?"), f"1;{FAILED};(@)")
        if int(client.query("TRAC:POIN:ACT?")) >= 1_000:
            raise Failure("the scan went to its end")
        same("the most at once", board.most, 1)
        board.plug()
        check_good_again(client, board, "the board is back")


def a_meter_that_fails_in_a_scan(program, folder):
    with bench(folder, ["1", "none", "9.91E37", "4", "5"]) as (board, meter, path), \
            served_by(program, path) as served, client_of(served) as client:
        client.write("ROUT:SCAN (@1!1,1!2);:TRIG:COUN 2")
        for _ in range(2):
            same("no reading", client.query("READ?;:SYST:ERR:ALL?;:ROUT:CLOS:STAT?"),
                 f'{FAILED},-230,"Data corrupt or stale";(@)')
            client.write("*CLS")
        same("on", board.on(), [])
        same("the next", client.query("READ?"), "4.000000000,5.000000000")
        same("the meter was set up anew", meter.asked.count("*RST"), 3)


def a_server_ends_beside_a_board_that_is_gone(program, folder):
    """Its end tells the slot whose relays may be closed still, and its status is 1."""
    with bench(folder) as (board, _, path), Supervised(program.path, "--rack", str(path)) as served:
        with client_of(served) as client:
            closed_then(client, "(@1!3)", board.unplug)
        served.process.stdin.close()
        same("status", served.process.wait(PATIENCE), 1)
        served.reader.join()
        same("the last line", served.remarks[-1],
             "mainframe: slot 1: its board has not confirmed that its relays are off\n")


def each_failure_is_told_to_the_log(program, folder):
    """A closing, an opening and a measurement that fail are one line each, with the card's slot."""
    with bench(folder, ["none"]) as (board, _, path), Supervised(program.path, "--rack", str(path), "--log") as served, \
            client_of(served) as client:
        board.coils[7] = True
        check_refused(client, "a closing")
        closed_then(client, "(@1!3)", lambda: board.coils.__setitem__(7, True))
        check_refused(client, "an opening", "ROUT:OPEN (@1!3)")
        client.query("ROUT:SCAN (@1!1);:INIT;*OPC?")
        told = [1, 1, 4]
        wait_until("the last line", lambda: len(failed_calls(served)) >= len(told))
        same("slots of calls that failed", failed_calls(served), told)


def failed_calls(served):
    """The slots of the calls that the log tells have failed."""
    lines = [re.fullmatch(r"mainframe: the card in slot (\d+) failed\n", line) for line in served.remarks]
    return [int(line[1]) for line in lines if line]


CHECKS = [a_board_whose_cable_is_out, a_board_that_hangs, a_board_that_lost_its_supply, another_master,
          an_idle_connection_that_ends, garbled_answers, a_late_answer_is_not_the_next_one,
          a_board_that_stops_in_a_scan, a_meter_that_fails_in_a_scan, a_server_ends_beside_a_board_that_is_gone,
          each_failure_is_told_to_the_log]
