"""The client's locks, and that what it sent last is done before it frees a lock or ends its session."""
import select
import threading

from swm import Kind

from support.checking import PATIENCE, SOON, same, wait_until, within
from support.hislip import receive, send
from support.scpi import IDENTITY, NO_ERROR
from support.scripted import scripted
from support.sessions import refuses, session

WAITING = "*RST;:ROUT:SCAN (@1!1);:TRIG:SOUR BUS;:INIT"


def locks(served):
    with session(served) as holder, session(served) as other:
        with holder.lock_context() as key:
            same("no key", key, None)
            refuses(lambda: other.lock_excl(50), "not in time", "a lock")
            refuses(lambda: holder.lock_excl(0), "held already")
        with holder.lock_context(requested_key="bench") as key:
            same("the key", (key, other.lock(0, "bench")), ("bench", "bench"))
            other.unlock()
            refuses(lambda: other.lock(0, "line"), "not in time")
        refuses(holder.unlock, "no lock is held")
        key = holder.lock()
        same("a key of its own", (len(key) > 8, other.lock(requested_key=key)), (True, key))
        other.close()
        holder.unlock()
        holder.lock_excl(None)
        holder.unlock()


def waits_for_a_lock(served):
    """A lock that is freed meanwhile is had, and what another session sends under it waits."""
    with session(served) as holder, session(served) as other:
        holder.lock_excl()
        freeing = threading.Timer(0.1, holder.unlock)
        freeing.start()
        other.lock_excl(PATIENCE * 1_000)
        freeing.join()
        holder.write("*IDN?")
        same("under the lock", other.query("SYST:VERS?"), "1999.0")
        other.unlock()
        same("after it", holder.read(), IDENTITY)


# ---- what was sent last


def receive_whole(commands):
    """The messages of a program message."""
    parts = [receive(commands)]
    while parts[-1].kind != Kind.DataEnd:
        parts.append(receive(commands))
    return parts


def answers_behind_the_last(commands, events):
    """Takes a command and the query behind it; nothing else comes until that is answered."""
    sent = [receive_whole(commands) for _ in range(2)]
    same("what is sent", [b"".join(part.payload for part in parts) for parts in sent],
         [b"ROUT:OPEN:ALL\n", b":SYST:ERR:COUN?\n"])
    same("whether the query interrupts", sent[1][0].control, 1)
    same("what comes before its answer", select.select([commands, events], [], [], 0.2)[0], [])
    send(commands, Kind.DataEnd, 0, sent[1][-1].parameter, b"0\n")


def closes_once_all_is_done(_):
    """Also where the instrument would drop a command whose client has ended: it is answered before."""
    ended = []

    def script(commands, events):
        answers_behind_the_last(commands, events)
        ended.append(commands.recv(1))

    with scripted(script) as mainframe:
        mainframe.write("ROUT:OPEN:ALL")
        mainframe.close()
        wait_until("the end of the connection", lambda: ended)
    same("what comes last", ended, [b""])


def releases_once_all_is_done(_):
    """Also where the instrument would free the lock before a command that came earlier."""
    def script(commands, events):
        answers_behind_the_last(commands, events)
        same("a release", receive(events)[:2], (Kind.AsyncLock, 0))
        send(events, Kind.AsyncLockResponse, 1)
        send(commands, Kind.DataEnd, 0, receive(commands).parameter, b"1\n")

    with scripted(script) as mainframe:
        mainframe.write("ROUT:OPEN:ALL")
        mainframe.unlock()
        same("an answer", mainframe.query("*OPC?"), "1")


def keeps_an_answer_at_a_release(served):
    with session(served) as mainframe:
        mainframe.write("*CLS")
        for message in ("*IDN?", "FOO?"):
            mainframe.lock_excl()
            mainframe.write(message)
            mainframe.unlock()
            same("message available", mainframe.read_stb() & 16, 16 if message == "*IDN?" else 0)
            if message == "*IDN?":
                same("the answer", mainframe.read(), IDENTITY)
        same("errors", mainframe.query("SYST:ERR?;ERR?"), f'-113,"Undefined header";{NO_ERROR}')
        mainframe.write(WAITING)
        mainframe.query("STAT:OPER:COND?")
        mainframe.lock_excl()
        mainframe.write("*OPC?;*IDN?")
        with within(SOON, "a release behind what is held"):
            mainframe.unlock()
        with session(served) as other:
            other.write("ABOR")
        same("the answer", mainframe.read(), f"1;{IDENTITY}")
        mainframe.write(WAITING)
        mainframe.write("*OPC?")
        with within(SOON, "a close behind what is held"):
            mainframe.close()
    with session(served) as mainframe:
        mainframe.write("*RST")


CHECKS = [
    locks, waits_for_a_lock, closes_once_all_is_done, releases_once_all_is_done, keeps_an_answer_at_a_release,
]
