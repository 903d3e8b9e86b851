"""Sessions that end while messages of theirs are on their way: what becomes of these, whichever connection ends first.

Each check takes the program and a number of rounds, and tells how many of them went wrong.
"""
import contextlib
import threading
import time

from swm import SessionError

from support.checking import PATIENCE, SOON, comes, tell
from support.hislip import CLOSED, check_end, program_message
from support.server import Served
from support.sessions import Client

BUSY = 4  # sessions that ask all the while
CROWD = 20  # threads, of which sixteen have a session at a time
MANY = 1_000  # messages that a client sends at once
OPENS = "ROUT:OPEN:ALL"
EACH = range(1, 11)
HELD = {  # by what a message is held: what another session does before, the message, and what lets it go
    "a lock": (lambda other: other.lock(0), "ROUT:CLOS (@2!7)", lambda other: other.release()),
    "a scan": (lambda other: other.query("ROUT:SCAN (@1!1);:TRIG:SOUR BUS;:INIT;:STAT:OPER:COND?"),
               "*OPC?;*ESE 7;:ROUT:CLOS (@2!7)", lambda other: other.query("*RST;*IDN?")),
}


# ---- ends


def first_before_second(client):
    client.commands.close()
    client.events.close()


def second_before_first(client):
    client.events.close()
    client.commands.close()


def both_at_once(client):
    closing = [threading.Thread(target=wire.close) for wire in (client.commands, client.events)]
    for thread in closing:
        thread.start()
    for thread in closing:
        thread.join()


def by_a_reset(client):
    client.break_off()


def second_alone(client):
    """The instrument ends the first one."""
    client.events.close()
    client.commands.settimeout(PATIENCE)
    check_end(client.commands)
    client.commands.close()


def first_alone(client):
    """The instrument ends the second one."""
    client.commands.close()
    client.events.settimeout(PATIENCE)
    check_end(client.events)
    client.events.close()


ENDS = [first_before_second, second_before_first, both_at_once, by_a_reset, second_alone, first_alone]


# ---- messages that had arrived are done


@contextlib.contextmanager
def others_at_work(served, count):
    """So many sessions ask all the while."""
    over = threading.Event()
    clients = [served.join() for _ in range(count)]

    def work(client):
        while not over.is_set():
            client.query("ROUT:CLOS? (@1!1);*IDN?")

    threads = [threading.Thread(target=work, args=[client]) for client in clients]
    for thread in threads:
        thread.start()
    try:
        yield
    finally:
        over.set()
        for thread, client in zip(threads, clients):
            thread.join()
            client.break_off()


def last_message(end, busy=0):
    """A check that a message that was sent right before the end is done."""
    def check(program, rounds):
        wrong = 0
        with Served(program) as served, served.join() as other, others_at_work(served, busy):
            for _ in range(rounds):
                other.query("ROUT:CLOS (@2!1:2!16);*OPC?")
                client = served.join()
                client.commands.sendall(program_message(OPENS))
                end(client)
                wrong += not comes(lambda: other.query("ROUT:CLOS:STAT?") == "(@)")
        tell("the last message was not done", wrong, rounds)
    return check


def ten_messages(end):
    """A check that ten messages that were sent right before the end are done, in order."""
    sent = b"".join(program_message(f"ROUT:CLOS (@2!{number});*ESE {number}") for number in EACH)
    done = f"10;(@{','.join(f'2!{number}' for number in EACH)})"

    def check(program, rounds):
        wrong = 0
        with Served(program) as served, served.join() as other:
            for _ in range(rounds):
                other.query(f"{OPENS};*ESE 0;*OPC?")
                client = served.join()
                client.commands.sendall(sent)
                end(client)
                wrong += not comes(lambda: other.query("*ESE?;:ROUT:CLOS:STAT?") == done)
        tell("ten messages were not done", wrong, rounds)
    return check


def by_the_client(program, rounds):
    """`with Session() as mainframe: mainframe.write(..)`, as scripts end."""
    wrong = 0
    with Served(program) as served, served.join() as other:
        for _ in range(rounds):
            other.query("ROUT:CLOS (@2!1:2!16);*OPC?")
            with served.join() as client:
                client.write(OPENS)
            wrong += not comes(lambda: other.query("ROUT:CLOS:STAT?") == "(@)")
    tell("the last message was not done", wrong, rounds)


def many_before_the_second_alone(program, rounds):
    """A thousand messages have arrived on the first connection when the second one ends."""
    wrong = 0
    with Served(program) as served, served.join() as other:
        for _ in range(max(rounds // 10, 1)):
            other.query("ROUT:CLOS (@2!1:2!16);*OPC?")
            client = served.join()
            client.commands.sendall(program_message("*CLS") * MANY + program_message(OPENS))
            time.sleep(0.01)
            second_alone(client)
            wrong += not comes(lambda: other.query("ROUT:CLOS:STAT?") == "(@)")
    tell("the last of many messages was not done", wrong, max(rounds // 10, 1))


# ---- held messages are not


def held(name, end):
    """A check that of a message that is held nothing is done once its client has ended."""
    hold, sent, let_go = HELD[name]

    def check(program, rounds):
        wrong = 0
        with Served(program) as served, served.join() as other:
            descriptors, threads = served.descriptors(), served.threads()
            for _ in range(max(rounds // 10, 1)):
                client = served.join()
                hold(other)
                client.commands.sendall(program_message(sent))
                end(client)
                served.await_end_of_others(descriptors, threads)
                let_go(other)
                time.sleep(0.02)
                wrong += other.query("ROUT:CLOS? (@2!7);*ESE?") != "0;0"
                other.write(f"{OPENS};*ESE 0")
        tell(f"a message that {name} held was done", wrong, max(rounds // 10, 1))
    return check


# ---- no connection stays


def first_ends_in_a_crowd(program, rounds):
    """Sixteen numbers are taken and others ask; who has one ends its first connection, and the second one ends."""
    stood = []

    def come_and_go(port, share):
        for _ in range(share):
            client = join_at_once(port)
            client.commands.close()
            client.events.settimeout(2 * SOON)
            try:
                check_end(client.events)
            except TimeoutError:
                stood.append(client)
            client.events.close()

    share = max(rounds * 10 // CROWD, 1)
    with Served(program) as served:
        crowd = [threading.Thread(target=come_and_go, args=(served.port, share)) for _ in range(CROWD)]
        for thread in crowd:
            thread.start()
        for thread in crowd:
            thread.join()
        served.check_sessions()
    tell("the second connection stayed", len(stood), share * CROWD)


def join_at_once(port):
    """A session, asked for again and again while there is none."""
    while True:
        try:
            return Client(port, timeout=PATIENCE * 1_000)
        except SessionError as refusal:
            if not isinstance(refusal.__cause__, CLOSED) and "FatalError 4" not in str(refusal):
                raise


def checks():
    """Each check by its name."""
    for end in ENDS:
        yield f"last message, {end.__name__}", last_message(end)
        yield f"ten messages, {end.__name__}", ten_messages(end)
        yield f"last message beside others, {end.__name__}", last_message(end, BUSY)
        yield from ((f"held by {name}, {end.__name__}", held(name, end)) for name in HELD)
    yield "last message, by_the_client", by_the_client
    yield "many messages, second_alone", many_before_the_second_alone
    yield "a crowd, first connection", first_ends_in_a_crowd
