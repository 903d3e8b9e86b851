"""A server ends in time with its input, beside whatever its clients do, and what it answers then is whole."""
import contextlib
import subprocess
import time

from support.checking import PATIENCE, Failure, same, wait_until, within
from support.hislip import BEGIN, CLOSED, LARGEST, message, program_message, receive
from support.pseudo_terminal import CTRL_D, at_a_terminal
from support.scpi import ALL_READINGS, IDENTITY, MOST_READINGS, SCAN
from support.server import END, Supervised, free_port

SETTLED = 0.5  # seconds after which the threads of a server that has nothing to do wait for as long as it takes
IDLE = 0.5  # seconds for which it is watched then
MOST_WORK = 0.05  # seconds of the processor that it may take meanwhile
PIPELINED = 1_000  # messages that wait behind one that is held


def ends_while(play):
    """A check that a server ends in time beside this, and says nothing of it. What stays is open until then."""
    def check(program):
        with Supervised(program) as served, contextlib.ExitStack() as clients:
            play(served, clients.enter_context)
            served.end()
            same("what it says", served.remarks[1:], [])
    check.__name__ = f"the_end_of_the_input_{play.__name__}"
    return check


def with_nobody(served, _stays):
    """By its end the server has looked at its input, whose end from the start it would name, and slept."""
    time.sleep(SETTLED)
    before = served.worked()
    time.sleep(IDLE)
    taken = served.worked() - before
    if taken > MOST_WORK:
        raise Failure(f"an idle server takes {taken:.2f} s of the processor in {IDLE} s")


def behind_text_that_nobody_asked_for(served, _stays):
    served.types("*IDN?\n" * 1_000)
    time.sleep(0.1)
    served.check_alive()


def beside_sixteen_idle_clients(served, stays):
    """Each was answered, so that the server waits for its next message as long as it takes."""
    for _ in range(16):
        same("identity", stays(served.join()).query("*IDN?"), IDENTITY)
    time.sleep(SETTLED)


def beside_a_held_query(served, stays):
    stays(served.join())
    stays(served.join()).write("ROUT:SCAN (@1!1);:TRIG:SOUR BUS;:INIT;*OPC?")


def beside_a_lock_and_who_waits_for_it(served, stays):
    stays(served.join())
    same("lock", stays(served.join()).lock(0), 1)
    waiting = stays(served.join())
    waiting.events.sendall(message(4, 1, 0xffff_ffff))
    waiting.write("*IDN?")


def beside_a_pause_of_an_hour(served, stays):
    stays(served.join())
    stays(served.join()).write("TRIG:DEL 3600;:ROUT:SCAN (@1!1);:INIT")


def beside_an_answer_that_nobody_reads(served, stays):
    client = stays(served.join())
    same("scan", client.query(SCAN.format(count=MOST_READINGS)), "1")
    client.write(";".join([":FETC?"] * 10))
    time.sleep(0.2)


def beside_half_a_message(served, stays):
    stays(served.join()).commands.sendall(message(6, 0, 0xffff_ff00, b"ROUT:CLOS") + b"HS\x07")


def beside_connections_without_a_session(served, stays):
    """One is silent, one has sent a part of a header, and one waits for its second connection."""
    threads = served.threads()
    stays(served.connect())
    stays(served.connect()).sendall(b"HS")
    half = stays(served.connect())
    half.sendall(BEGIN)
    same("kind", receive(half).kind, 1)
    wait_until("a thread for each", lambda: served.threads() >= threads + 3)
    time.sleep(SETTLED)


def at_its_terminal(program):
    """Ctrl-D ends the server well."""
    port = free_port()
    with at_a_terminal([program, "serve", "--until-end-of-input", "--port", str(port)]) as terminal:
        terminal.shows(f"listening on 127.0.0.1:{port}")
        with within(END, "the end"):
            terminal.types(CTRL_D)
            same("status", terminal.process.wait(PATIENCE), 0)


def a_pipe_whose_writer_is_killed(program):
    """What holds the pipe is ended, and the shell ends with the server."""
    port = free_port()
    command = f"sleep 3600 | exec '{program}' serve --until-end-of-input --port {port}"
    with subprocess.Popen(["/bin/sh", "-c", command], stderr=subprocess.PIPE, text=True) as shell:
        same("what it says", shell.stderr.readline(), f"mainframe: listening on 127.0.0.1:{port}\n")
        with within(END, "the end"):
            subprocess.run(["pkill", "-P", str(shell.pid), "-x", "sleep"], check=True)
            same("status", shell.wait(PATIENCE), 0)


def an_input_that_has_ended_from_the_start(program):
    """As by `&` in a script: the server says why it ends."""
    port = free_port()
    done = subprocess.run([program, "serve", "--until-end-of-input", "--port", str(port)], stdin=subprocess.DEVNULL,
                          capture_output=True, text=True, timeout=PATIENCE)
    same("status", done.returncode, 0)
    same("what it says", done.stderr.splitlines(), [
        f"mainframe: listening on 127.0.0.1:{port}",
        "mainframe: standard input had ended from the start, and the server ends with it"])


def the_message_that_the_end_meets_is_answered_whole(program):
    with Supervised(program) as served, served.join() as client:
        same("scan", client.query(SCAN.format(count=MOST_READINGS)), "1")
        client.write("FETC?")
        first = client.commands.recv(16)
        with within(END, "the end"):
            served.process.stdin.close()
            told = first
            while True:
                part = client.commands.recv(1 << 20)
                if not part:
                    break
                told += part
            same("status", served.process.wait(PATIENCE), 0)
    same("the answer", payloads(told), f"{ALL_READINGS}\n")


def what_waits_behind_a_held_message_is_not_done(program):
    """The server's end stops the first session before the second one's, with which its lock goes."""
    with Supervised(program) as served, served.join() as client, served.join() as holder:
        same("the lock's session", (client.number, holder.number, holder.lock(0)), (1, 2, 1))
        client.commands.sendall(program_message("*OPC?"))
        same("a release of no lock, behind what is held", client.release(), 3)
        client.commands.sendall(program_message("*OPC?") * PIPELINED)
        served.process.stdin.close()
        told = bytearray()
        with contextlib.suppress(*CLOSED):
            while part := client.commands.recv(LARGEST):
                told += part
        same("status", served.process.wait(PATIENCE), 0)
    if len(told) > len(message(7, payload=b"1\n")):
        raise Failure(f"{len(told)} bytes answer what came behind a message that was held")


def payloads(stream):
    text, at = b"", 0
    while at < len(stream):
        length = int.from_bytes(stream[at + 8:at + 16], "big")
        text += stream[at + 16:at + 16 + length]
        at += 16 + length
    return text.decode()


def more_desks_than_a_few(program):
    """Sixteen sessions at once, twice, and then the end, to which every desk has to get."""
    with Supervised(program) as served:
        for _ in range(2):
            clients = [served.join() for _ in range(16)]
            for client in clients:
                client.close()
        served.end()


CHECKS = [ends_while(play) for play in (
    with_nobody, behind_text_that_nobody_asked_for, beside_sixteen_idle_clients, beside_a_held_query,
    beside_a_lock_and_who_waits_for_it, beside_a_pause_of_an_hour, beside_an_answer_that_nobody_reads,
    beside_half_a_message, beside_connections_without_a_session)]
CHECKS += [at_its_terminal, an_input_that_has_ended_from_the_start, a_pipe_whose_writer_is_killed,
           the_message_that_the_end_meets_is_answered_whole, what_waits_behind_a_held_message_is_not_done,
           more_desks_than_a_few]
