"""Boards that others made: Debian's pymodbus as the board, mbpoll looking on from outside, socat for serial lines and for
networks. What isn't installed is told, and not tried."""
import contextlib
import pathlib
import shutil
import subprocess
import time

from support.boards import Meter, rack_file
from support.checking import PATIENCE, same, wait_until
from support.server import Served, free_port, is_refused
from support.sessions import Client

PYTHON = "/usr/bin/python3"  # which Debian's packages are for
BOARD = pathlib.Path(__file__).parent / "pymodbus_board.py"
UNIT = 17
QUIET = {"stdout": subprocess.DEVNULL, "stderr": subprocess.DEVNULL}
FAILED = '-240,"Hardware error"'

TCP = '''
[slot.1]
card = "relays"
driver = "modbus-tcp"
address = "127.0.0.1:{port}"
unit = 17
channels = 8
group = 1
limit_ms = 3000
'''
SERIAL = '''
[slot.2]
card = "relays"
driver = "modbus-rtu"
device = "{device}"
unit = 17
channels = 6
first_coil = 2
limit_ms = 3000
'''
SIMULATED = '[slot.3]\ncard = "relays"\ndriver = "simulated"\nchannels = 2\ngroup = 1\n'
METER = f'[slot.4]\ncard = "meter"\ndriver = "scpi"\naddress = "{{address}}"\nlimit_ms = {PATIENCE * 1000}\n'


@contextlib.contextmanager
def running(*words):
    process = subprocess.Popen([str(word) for word in words], **QUIET)
    try:
        yield process
    finally:
        process.kill()
        process.wait()


@contextlib.contextmanager
def board_of_pymodbus(port, *device):
    with running(PYTHON, "-B", BOARD, UNIT, 8, port, *device) as board:
        wait_until("pymodbus", lambda: not is_refused(port))
        yield board


@contextlib.contextmanager
def serial_line(folder):
    """Both ends of a serial line."""
    near, far = folder / "near", folder / "far"
    with running("socat", f"pty,raw,echo=0,link={near}", f"pty,raw,echo=0,link={far}"):
        wait_until("socat", lambda: near.exists() and far.exists())
        yield near, far


def mbpoll(port, *words):
    way = ["mbpoll", "-m", "tcp", "-a", str(UNIT), "-0", "-t", "0", "-1", "-p", str(port)]
    return subprocess.run([*way, *words], capture_output=True, text=True, timeout=PATIENCE, check=True).stdout


def seen(port):
    """The coils that are on, as mbpoll sees them."""
    lines = [line for line in mbpoll(port, "-r", "0", "-c", "8", "127.0.0.1").splitlines() if line.startswith("[")]
    return [at for at, line in enumerate(lines) if line.split()[-1] == "1"]


def switch_on(port, coil):
    """Somebody else switches a coil on."""
    mbpoll(port, "-r", str(coil), "127.0.0.1", "1")


def closed_by(client, command):
    """What is closed after a command, and the error."""
    client.write(command)
    return client.query("SYST:ERR?;:ROUT:CLOS:STAT?")


def typed_lines(program, folder):
    """Line by line, each looked at from outside."""
    port = free_port()
    path = rack_file(folder, TCP.format(port=port))
    pipe = subprocess.PIPE
    with board_of_pymodbus(port), \
            subprocess.Popen([program.path, "run", "--rack", str(path)], stdin=pipe, stdout=pipe, text=True) as run:
        for line, told, on in [("ROUT:CLOS (@1!3);CLOS:STAT?", "(@1!3)", [2]),
                               ("ROUT:OPEN (@1!3);CLOS (@1!8);CLOS:STAT?", "(@1!8)", [7]),
                               ("*RST;:ROUT:CLOS:STAT?", "(@)", [])]:
            run.stdin.write(f"{line}\n")
            run.stdin.flush()
            same(line, run.stdout.readline(), f"{told}\n")
            same(f"{line}: by mbpoll", seen(port), on)
        run.stdin.close()
        same("status", run.wait(PATIENCE), 0)


def the_whole_way(program, folder):
    """A server over a board and a meter, and a client: closings, a scan whose positions settle, the board killed in a
    scan, and the board back."""
    port, readings = free_port(), [f"{n}E-3" for n in range(1, 2_000)]
    with Meter(*readings) as meter:
        path = rack_file(folder, TCP.format(port=port) + SIMULATED + METER.format(address=meter.address))
        with board_of_pymodbus(port) as board, Served(program.path, "--rack", str(path)) as served, \
                Client(served.port, timeout=PATIENCE * 1_000) as client:
            same("closed", closed_by(client, "ROUT:CLOS (@1!3)"), '0,"No error";(@1!3)')
            same("by mbpoll", seen(port), [2])
            same("a clash", closed_by(client, "ROUT:CLOS (@3!1)"), '-221,"Settings conflict";(@1!3)')
            same("opened", closed_by(client, "ROUT:OPEN:ALL"), '0,"No error";(@)')
            same("by mbpoll", seen(port), [])
            scan_that_settles(client, meter, port)
            client.write("TRIG:COUN 1000;:ROUT:CHAN:DEL 0;:INIT")
            wait_until("some readings", lambda: int(client.query("TRAC:POIN:ACT?")) > 20)
            board.kill()
            board.wait()
            same("the scan ends", client.query("*OPC?;:SYST:ERR?;:ROUT:CLOS:STAT?"), f"1;{FAILED};(@)")
            same("another card", closed_by(client, "*CLS;:ROUT:CLOS (@3!1)"), f"{FAILED};(@)")
            with board_of_pymodbus(port):
                wait_until("a closing", lambda: closed_by(client, "*CLS;*RST;:ROUT:CLOS (@1!6)") == '0,"No error";(@1!6)'
                           or time.sleep(0.3))
                same("by mbpoll", seen(port), [5])
                same("opened", closed_by(client, "ROUT:OPEN (@1!6)"), '0,"No error";(@)')
                same("by mbpoll", seen(port), [])
            served.check_alive()


def scan_that_settles(client, meter, port):
    """Each reading finds its position's coil on, and no other."""
    on = []
    meter.noted = lambda what: on.append(seen(port))
    same("readings", client.query("ROUT:SCAN (@1!1,1!8,3!2);:ROUT:CHAN:DEL 50 MS;:TRIG:COUN 3;:READ?"),
         "0.001000000,0.002000000,0.003000000")
    meter.noted = lambda what: None
    same("what mbpoll saw at each reading", on, [[0], [7], []])
    same("by mbpoll", seen(port), [])


def a_board_on_a_serial_line(program, folder):
    """Modbus RTU; mbpoll asks the same board over TCP."""
    port = free_port()
    with serial_line(folder) as (near, far), board_of_pymodbus(port, far):
        switch_on(port, 0)  # a coil that isn't the card's
        path = rack_file(folder, SERIAL.format(device=near))
        program.check(["rack", str(path)], b"", f"slot 2: relays, 6 channels, modbus-rtu at {near}: reached\n".encode())
        with Served(program.path, "--rack", str(path)) as served, \
                Client(served.port, timeout=PATIENCE * 1_000) as client:
            same("closed", closed_by(client, "ROUT:CLOS (@2!1,2!6)"), '0,"No error";(@2!1,2!6)')
            same("by mbpoll", seen(port), [0, 2, 7])
            switch_on(port, 4)
            same("another master", closed_by(client, "ROUT:OPEN (@2!1)"), f"{FAILED};(@)")
            same("by mbpoll", seen(port), [0])
        program.check(["off", "--rack", str(path)], b"",
                      f"slot 2: relays, 6 channels, modbus-rtu at {near}: every relay is off\n".encode())


def a_network_that_ends_idle_connections(program, folder):
    """The connection is made anew, the coils are compared, and nobody notices."""
    port, between = free_port(), free_port()
    network = ["socat", "-T", "0.3", f"TCP-LISTEN:{between},bind=127.0.0.1,fork,reuseaddr", f"TCP:127.0.0.1:{port}"]
    path = rack_file(folder, TCP.format(port=between))
    with board_of_pymodbus(port), running(*network):
        wait_until("socat", lambda: not is_refused(between))
        with Served(program.path, "--rack", str(path)) as served, \
                Client(served.port, timeout=PATIENCE * 1_000) as client:
            same("closed", closed_by(client, "ROUT:CLOS (@1!3)"), '0,"No error";(@1!3)')
            time.sleep(0.7)
            same("after a while", closed_by(client, "ROUT:OPEN (@1!3);CLOS (@1!4)"), '0,"No error";(@1!4)')
            same("by mbpoll", seen(port), [3])
            time.sleep(0.7)
            switch_on(port, 7)
            same("another master", closed_by(client, "ROUT:OPEN (@1!4)"), f"{FAILED};(@)")
            same("by mbpoll", seen(port), [])


def where_installed(check, *wanted):
    """The check, where pymodbus and these programs are installed; else a line that tells what was not tried."""
    def tried(program, folder):
        has = [PYTHON, "-c", "import pymodbus.server, serial_asyncio"]
        missing = [name for name in wanted if not shutil.which(name)]
        if not shutil.which(PYTHON) or subprocess.run(has, check=False, **QUIET).returncode:
            missing.append("python3-pymodbus with python3-serial-asyncio")
        if missing:
            print(f"{check.__name__}: not tried, not installed: {', '.join(missing)}", flush=True)
            return
        check(program, folder)

    tried.__name__ = check.__name__
    return tried


CHECKS = [where_installed(typed_lines, "mbpoll"), where_installed(the_whole_way, "mbpoll"),
          where_installed(a_board_on_a_serial_line, "mbpoll", "socat"),
          where_installed(a_network_that_ends_idle_connections, "mbpoll", "socat")]
