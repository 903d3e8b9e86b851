"""Scan programs over boards of lines: what these and the meter are sent, in order over all, is the programs' items."""
import collections
import contextlib
import functools
import itertools
import random
import threading
import time

from support.boards import LineBoard, Meter, rack_file
from support.checking import PATIENCE, Failure, comes, same, wait_until
from support.scan_programs import HELD, awaited, closed_after, code, items_of, listed, random_program
from support.scpi import NO_ERROR
from support.server import Supervised
from support.sessions import session

FAILED = '-240,"Hardware error"'
BOARDS = {1: (20, 1), 2: (16, 0), 3: (10, 1)}  # by slot, channels and exclusion group: as of the program's own cards
TELLING = ("1", "2")  # slots whose boards tell how a channel stands
CLEARS = {"clear 1", "clear 2", "clear 3"}
WAITING = [step.replace("read", "wait trig") for step in HELD]
REFUSED = {"refused": (False, b"no\n"), "not done": (False, b""), "done and refused": (True, b"no\n")}

RELAYS = '''
[slot.{slot}]
card = "relays"
driver = "lines"
address = "{address}"
channels = {channels}
group = {group}
on = "set {{ch}} 1\\n"
off = "set {{ch}} 0\\n"
all_off = "clear\\n"
answer_end = "\\n"
answer = "ok"
limit_ms = {limit}
'''
STATE = 'state = "get {ch}\\n"\nstate_on = "1"\nstate_off = "0"\n'
METER = '[slot.4]\ncard = "meter"\ndriver = "scpi"\naddress = "{address}"\nlimit_ms = {limit}\n'


class Record:
    """What boards and their meter are sent, in order over all: `close 1!3`, `open 1!3`, `clear 1` for all relays of
    slot 1, `state 1!3`, `read`, and `told` before the meter answers. A client adds `trigger`."""

    def __init__(self):
        self.lines = []
        self.boards = {slot: LineBoard(channels) for slot, (channels, _) in BOARDS.items()}
        self.meter, self.released = Meter(), threading.Event()
        for slot, board in self.boards.items():
            board.heeds = functools.partial(self.hears, slot)
        self.meter.noted = self.measures
        self.expect([])

    def expect(self, readings, held=0, failing=("", 0), way="refused"):
        """Of the next scan: what the meter answers, the number of a reading that waits until `released` is set, the
        word and the number of a line that goes wrong, and how."""
        self.released.clear()
        self.meter.texts = list(readings)
        self.held, self.failing, self.way = held, failing, REFUSED[way]

    def count(self, word):
        return sum(line.split()[0] == word for line in self.lines)

    def hears(self, slot, line):
        word, *parts = line.split()
        word = {"set 1": "close", "set 0": "open", "get": "state"}.get(" ".join([word, *parts[1:]]), word)
        self.lines.append(f"{word} {'!'.join([str(slot), *parts[:1]])}")
        return self.way if (word, self.count(word)) == self.failing else (True, b"")

    def measures(self, _):
        """The reading takes some time, in which nothing may be sent to a board."""
        self.lines.append("read")
        if self.count("read") == self.held:
            self.released.wait(PATIENCE)
        time.sleep(0.001)
        self.lines.append("told")

    def on(self):
        """The channels that are on by the boards' own state."""
        return listed(f"{slot}!{at + 1}" for slot, board in self.boards.items() for at in board.on())

    def switchings(self):
        return without_states(self.lines)

    def file(self, folder):
        cards = [RELAYS.format(slot=slot, address=self.boards[slot].address, channels=channels, group=group,
                               limit=PATIENCE * 1_000) + (STATE if str(slot) in TELLING else "")
                 for slot, (channels, group) in BOARDS.items()]
        return rack_file(folder, "".join(cards) + METER.format(address=self.meter.address, limit=PATIENCE * 1_000))


def without_states(lines):
    return [line for line in lines if not line.startswith("state")]


def lines_of(items):
    """What these items have boards and meter sent: for each channel, in the order written, one exchange, and one that
    reads it back where the board tells it."""
    lines = {"read": ["read", "told"], "wait": ["trigger"], "pause": []}
    return [line for word, channels in items for line in lines.get(word, switching(word, channels))]


def switching(word, channels):
    """The exchanges of a step that closes or opens."""
    return [line for chan in channels
            for line in ([f"{word} {chan}", f"state {chan}"] if chan.split("!")[0] in TELLING else [f"{word} {chan}"])]


@contextlib.contextmanager
def recorded(program, folder):
    """A record, and a session over its rack. Where the server starts and ends it switches every board off."""
    record = Record()
    with contextlib.ExitStack() as peers:
        for peer in [*record.boards.values(), record.meter]:
            peers.enter_context(peer)
        with Supervised(program.path, "--rack", str(record.file(folder))) as served:
            same("at the start", [line for line, _ in itertools.groupby(record.switchings())], sorted(CLEARS))
            with session(served) as mainframe:
                mainframe.write("*RST;:TRIG:SOUR BUS")
                settled(record, mainframe)
                yield record, mainframe
            same("since the last scan", record.lines, [])
            served.process.stdin.close()
            same("status", served.process.wait(PATIENCE), 0)
        same("at the end", (set(record.switchings()), record.on()), (CLEARS, "(@)"))


def settled(record, mainframe):
    """What was recorded until no scan runs, the meter is back, and no relay is on. The next record is empty."""
    if not comes(lambda: mainframe.query("*CLS;*OPC?;:SYST:CTYP? 4").split(",")[2] != "0", PATIENCE):
        raise Failure("the meter does not come back")
    same("on behind a scan", record.on(), "(@)")
    lines, record.lines = record.lines, []
    return lines


def readings(items):
    """A different reading for each that the items make."""
    return [str(number) for number in range(1, 1 + sum(word == "read" for word, _ in items))]


def begins(mainframe, steps):
    """The program is loaded and begun."""
    mainframe.load_program(code(*steps))
    same("what is awaited", mainframe.query("DIAG:SCAN:BOUN?;:INIT"), str(len(awaited(items_of(steps)))))


def waits(mainframe):
    """The scan waits for its trigger."""
    if not comes(lambda: mainframe.query("STAT:OPER:COND?") == "32", PATIENCE):
        raise Failure("no wait for a trigger")


def goes_through(record, mainframe, items):
    """Triggers the waits of these items, each with exactly those relays on that the items before it leave closed."""
    for at in [at for at, (word, _) in enumerate(items) if word == "wait"]:
        waits(mainframe)
        closed = listed(closed_after(items[:at]))
        same("closed at a wait, and on", (mainframe.query("ROUT:CLOS:STAT?"), record.on()), (closed, closed))
        record.lines.append("trigger")
        mainframe.write("*TRG")


def does_its_items(record, mainframe, steps):
    """Each line that the boards and the meter were sent, and each trigger, is that of the items, in their order."""
    items = items_of(steps)
    made = readings(items)
    record.expect(made)
    begins(mainframe, steps)
    goes_through(record, mainframe, items)
    told = mainframe.query("*OPC?;:TRAC:POIN:ACT?;:ROUT:CLOS:STAT?;:SYST:ERR?")
    same("the end, and on", (told, record.on()), (f"1;{len(made)};(@);{NO_ERROR}", "(@)"))
    same("what was sent", " ".join(record.lines), " ".join(lines_of(items)))
    record.lines.clear()
    if made:
        same("readings", mainframe.query("FETC?"), ",".join(f"{number}.000000000" for number in made))


def is_aborted(record, mainframe, steps, at):
    """While this item is awaited its scan is aborted: nothing more is closed, and no relay stays on."""
    items, is_read = items_of(steps), items_of(steps)[at][0] == "read"
    record.expect(readings(items), held=len(readings(items[:at + 1])) if is_read else 0)
    begins(mainframe, steps)
    goes_through(record, mainframe, items[:at])
    if is_read:
        wait_until("a reading", lambda: record.count("read") == record.held)
    else:
        waits(mainframe)
    done = lines_of(items[:at]) + ["read"] * is_read
    same(f"before item {at}", record.lines, done)
    told = mainframe.query("ABOR;:ROUT:CLOS:STAT?;*OPC?;:SYST:ERR?")
    same(f"aborted at item {at}, and on", (told, record.on()), (f"(@);1;{NO_ERROR}", "(@)"))
    record.released.set()
    later = settled(record, mainframe)[len(done):]
    same(f"closed after item {at}", [line for line in later if line.startswith("close")], [])


def fails(record, mainframe, word, number, way):
    """The number-th closing, opening or reading goes wrong: each board is switched off behind it, and no relay stays
    on."""
    items = items_of(HELD)
    made = readings(items)
    if word == "told":
        made[number - 1] = "none"
    record.expect(made, failing=(word, number), way=way)
    begins(mainframe, HELD)
    what = f"{word} {number} {way}"
    told = mainframe.query("*OPC?;:ROUT:CLOS:STAT?;:SYST:ERR:ALL?")
    same(f"{what}, and on", (told, record.on()), (f"1;(@);{FAILED}", "(@)"))
    wanted, lines = without_states(lines_of(items)), without_states(settled(record, mainframe))
    last = [at for at, line in enumerate(wanted) if line.split()[0] == word][number - 1]
    same(what, lines[:last + 1], wanted[:last + 1])
    same(f"behind {what}", set(lines[last + 1:]), CLEARS)


def with_random_programs(check, count, seed):
    """The check of the random programs with the seed and the numbers behind it; a failure tells which one."""
    for number in range(seed, seed + count):
        chance = random.Random(number)
        steps = random_program(chance)
        try:
            check(steps, chance)
        except Failure as fault:
            raise Failure(f"program {number}, {'/'.join(steps)}: {fault}") from fault


def does_what_random_programs_say(program, folder, count, seed):
    with recorded(program, folder) as (record, mainframe):
        with_random_programs(lambda steps, _: does_its_items(record, mainframe, steps), count, seed)


def opens_all_where_random_programs_are_aborted(program, folder, count, seed):
    """At a reading, at a wait, or at one more wait at the end."""
    def try_one(steps, chance):
        steps = [*steps[:-1], "wait trig", "halt"]
        items = items_of(steps)
        is_aborted(record, mainframe, steps, chance.choice([at for at in awaited(items) if items[at][0] != "pause"]))

    with recorded(program, folder) as (record, mainframe):
        with_random_programs(try_one, count, seed)


def opens_all_wherever_it_is_aborted(program, folder):
    """At each reading of a program that holds a channel over others, and at each wait in place of one."""
    with recorded(program, folder) as (record, mainframe):
        for steps, at in [(steps, at) for steps in (HELD, WAITING) for at in awaited(items_of(steps))]:
            is_aborted(record, mainframe, steps, at)


def opens_all_wherever_it_fails(program, folder):
    """At each closing and opening, refused or not done, and at each reading."""
    done = collections.Counter(line.split()[0] for line in without_states(lines_of(items_of(HELD))))
    same("what may fail", done, {"close": 8, "open": 8, "read": 6, "told": 6})
    faults = [(word, number, way) for word, ways in [("close", REFUSED), ("open", REFUSED), ("told", ["refused"])]
              for number, way in itertools.product(range(1, done[word] + 1), ways)]
    with recorded(program, folder) as (record, mainframe):
        for fault in faults:
            fails(record, mainframe, *fault)


CHECKS = [opens_all_wherever_it_is_aborted, opens_all_wherever_it_fails]
AT_RANDOM = [does_what_random_programs_say, opens_all_where_random_programs_are_aborted]
