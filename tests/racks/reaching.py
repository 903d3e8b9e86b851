"""Reaching the cards of a rack: at the start, by `rack`, which moves nothing, and by `off`."""
import os
import pty
import threading
import tty

from support.boards import LineBoard, bench, rack_file
from support.checking import PATIENCE, same, wait_until_same
from support.process import ANSWERED

LINES = '''
[slot.2]
card = "relays"
driver = "lines"
address = "{address}"
channels = 4
on = "set {{ch}} 1\\n"
off = "set {{ch}} 0\\n"
all_off = ["set 1 0\\n", "set 2 0\\n", "set 3 0\\n", "set 4 0\\n"]
answer_end = "\\n"
answer = "ok"
limit_ms = 3000
'''
STATE = 'state = "get {ch}\\n"\nstate_on = "1"\nstate_off = "0"\n'


def rack_reaches_and_moves_nothing(program, folder):
    with bench(folder) as (board, meter, path):
        board.coils[2] = True
        program.check(["rack", str(path)], b"", "\n".join([
            f"slot 1: relays, 8 channels, modbus-tcp at {board.address}: reached",
            "slot 3: relays, 10 channels, simulated: reached",
            f"slot 4: meter, scpi at {meter.address}: reached\n"]).encode())
        same("on", board.on(), [2])
        same("what the board was asked", {function for function, _, _ in board.asked}, {1})
        wait_until_same("what the meter was sent", lambda: meter.asked, ["*RST", "CONF:VOLT:DC 10"], PATIENCE)


def rack_reaches_the_others_too(program, folder):
    with bench(folder) as (board, meter, path):
        board.unplug()
        done = program.run(["rack", str(path)])
        same("fault", done.stderr, f"mainframe: slot 1: {board.address}: no connection: ConnectionRefused\n".encode())
        same("told", done.stdout.count(b": reached\n"), 2)
        same("status", done.returncode, 1)


def off_switches_every_relay_off(program, folder):
    with bench(folder) as (board, _, path), LineBoard(4) as lines:
        path = rack_file(folder, path.read_text().replace("version = 1\n", "")
                         + LINES.format(address=lines.address) + STATE)
        board.coils[2] = lines.coils[3] = True
        program.check(["off", "--rack", str(path)], b"", "\n".join([
            f"slot 1: relays, 8 channels, modbus-tcp at {board.address}: every relay is off",
            f"slot 2: relays, 4 channels, lines at {lines.address}: every relay is off",
            "slot 3: relays, 10 channels, simulated: every relay is off\n"]).encode())
        same("on", board.on() + lines.on(), [])


def off_says_what_it_could_not_switch_off(program, folder):
    with bench(folder) as (board, _, path):
        board.coils[2], board.sticks = True, {2}
        done = program.run(["off", "--rack", str(path)])
        same("fault", done.stderr, f"mainframe: slot 1: {board.address}: channel 3 is not as it should be\n".encode())
        same("status", done.returncode, 1)


def off_goes_on_behind_a_board_that_is_away(program, folder):
    with bench(folder) as (board, _, path), LineBoard(4) as lines:
        path = rack_file(folder, path.read_text().replace("version = 1\n", "")
                         + LINES.format(address=lines.address) + STATE)
        board.unplug()
        lines.coils[3] = True
        program.check(["off", "--rack", str(path)], b"", "\n".join([
            f"slot 2: relays, 4 channels, lines at {lines.address}: every relay is off",
            "slot 3: relays, 10 channels, simulated: every relay is off\n"]).encode(), 1,
            f"mainframe: slot 1: {board.address}: no connection: ConnectionRefused\n".encode())
        same("on", lines.on(), [])


def boards_before_one_that_fails_are_off(program, folder):
    """Nobody is served, and what was reached before is off."""
    with bench(folder) as (board, meter, path):
        board.coils[2] = True
        meter.unplug()
        program.check(["run", "--rack", str(path)], b"*IDN?\n", b"", 1,
                      f"mainframe: slot 4: {meter.address}: no connection: ConnectionRefused\n".encode())
        same("on", board.on(), [])


def places_that_are_none(program, folder):
    """An address that is none, and a device that isn't there."""
    for key, place, told in [("address", "127.0.0.1", "invalid socket address"),
                             ("device", str(folder / "none"), "no connection: NotFound")]:
        path = rack_file(folder, LINES.format(address="").replace('address = ""', f'{key} = "{place}"'))
        for words in (["run", "--rack"], ["serve", "--port", "1", "--rack"], ["rack"], ["off", "--rack"]):
            program.check([*words, str(path)], b"*IDN?\n", b"", 1, f"mainframe: slot 2: {place}: {told}\n".encode())


def nobody_is_served_where_a_card_is_not_reached(program, folder):
    with bench(folder) as (board, _, path):
        for prepare, told in [(board.unplug, "no connection: ConnectionRefused"),
                              (lambda: (board.plug(), setattr(board, "is_silent", True)), "no answer in time"),
                              (lambda: (setattr(board, "is_silent", False), setattr(board, "unit", 9)),
                               "no answer in time"),
                              (lambda: (setattr(board, "unit", 1), board.coils.pop()), "refused by exception 2")]:
            prepare()
            for words in (["run"], ["serve", "--port", "1"]):
                program.check([*words, "--rack", str(path)], b"*IDN?\n", b"", 1,
                              f"mainframe: slot 1: {board.address}: {told}\n".encode())


def nobody_is_served_by_a_board_that_is_not_all_off(program, folder):
    with bench(folder) as (board, _, path):
        board.coils[4], board.sticks = True, {4}
        program.check(["run", "--rack", str(path)], b"*IDN?\n", b"", 1,
                      f"mainframe: slot 1: {board.address}: channel 5 is not as it should be\n".encode())


def a_start_switches_every_relay_off(program, folder):
    with bench(folder) as (board, _, path):
        board.coils[4] = True
        program.check(["run", "--rack", str(path)], b"*IDN?\n", ANSWERED)
        same("on", board.on(), [])


def a_board_that_confirms_nothing_is_told(program, folder):
    with LineBoard(4) as lines:
        text = LINES.format(address=lines.address).replace('answer_end = "\\n"\nanswer = "ok"\n', "")
        path = rack_file(folder, text)
        program.check(["run", "--rack", str(path)], b"ROUT:CLOS (@2!3);CLOS:STAT?\n", b"(@2!3)\n", 0,
                      b"mainframe: slot 2: its board confirms nothing\n")


def relays_on_a_serial_line(program, folder):
    """A board behind a device's file, here the slave of a pseudo terminal whose master a board answers at."""
    master, slave = pty.openpty()
    tty.setraw(slave)
    lines = LineBoard(4)
    path = rack_file(folder, LINES.format(address="").replace('address = ""', f'device = "{os.ttyname(slave)}"') + STATE)

    def answers():
        with open(master, "r+b", buffering=0) as wire:
            while True:
                wire.write(lines.answer(wire))

    threading.Thread(target=answers, daemon=True).start()
    with lines:
        program.check(["run", "--rack", str(path)], b"ROUT:CLOS (@2!3);CLOS:STAT?;:ROUT:OPEN (@2!3);CLOS:STAT?\n",
                      b"(@2!3);(@)\n")
        same("the most at once", lines.most, 1)


CHECKS = [rack_reaches_and_moves_nothing, rack_reaches_the_others_too, off_switches_every_relay_off,
          off_says_what_it_could_not_switch_off, off_goes_on_behind_a_board_that_is_away,
          boards_before_one_that_fails_are_off, places_that_are_none, nobody_is_served_where_a_card_is_not_reached,
          nobody_is_served_by_a_board_that_is_not_all_off, a_start_switches_every_relay_off,
          a_board_that_confirms_nothing_is_told, relays_on_a_serial_line]
