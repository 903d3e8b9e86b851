"""Boards of relays and a meter in place of real ones, each behind a port of its own. What they are sent is kept."""
import contextlib
import socket
import threading

from support.checking import PATIENCE

LIMIT = 1.0  # seconds that a board of a bench has for an answer
ON = 0xFF00  # the value by which function 5 of Modbus switches on


class Peer:
    """What listens at a port and serves each connection by a thread. `is_silent` hears and answers nothing;
    `unplug` ends the connections and takes no more, until `plug`. `noted` is called with what happens here."""

    noted = staticmethod(lambda what: None)

    def __init__(self):
        self.lock, self.wires = threading.Lock(), []
        self.port, self.is_silent, self.is_plugged = 0, False, False
        self.plug()

    def plug(self):
        self.listener = socket.create_server(("127.0.0.1", self.port))
        self.port, self.is_plugged = self.listener.getsockname()[1], True
        threading.Thread(target=self.take, args=(self.listener,), daemon=True).start()

    def unplug(self):
        self.is_plugged = False
        with contextlib.suppress(OSError):
            self.listener.shutdown(socket.SHUT_RDWR)
        self.listener.close()
        self.hang_up()

    def hang_up(self):
        """Ends the connections that there are."""
        with self.lock:
            wires, self.wires = self.wires, []
        for wire in wires:
            with contextlib.suppress(OSError):
                wire.shutdown(socket.SHUT_RDWR)

    def take(self, listener):
        with contextlib.suppress(OSError):
            while self.is_plugged:
                wire, _ = listener.accept()
                with self.lock:
                    self.wires.append(wire)
                threading.Thread(target=self.attend, args=(wire,), daemon=True).start()

    def attend(self, wire):
        with contextlib.suppress(OSError, EOFError), wire, wire.makefile("rb") as heard:
            while True:
                answer = self.answer(heard)
                if answer and not self.is_silent:
                    wire.sendall(answer)

    def answer(self, heard):
        """Hears a message and gives the answer to it; EOFError at the end."""
        raise NotImplementedError

    @property
    def address(self):
        return f"127.0.0.1:{self.port}"

    def __enter__(self):
        return self

    def __exit__(self, *_):
        self.unplug()


class Coils(Peer):
    """A board whose coils are counted from 0. `most` is how many were on at once; `asked` is what it was asked for."""

    def __init__(self, count):
        self.coils, self.most, self.asked, self.sticks = [False] * count, 0, [], set()
        super().__init__()

    def switch(self, first, states):
        for at, state in enumerate(states, first):
            if at not in self.sticks:
                self.coils[at] = state
        self.most = max(self.most, sum(self.coils))
        self.noted(self.on())

    def on(self):
        """The coils that are on, from 0."""
        return [at for at, state in enumerate(self.coils) if state]


def bits(states):
    """States as Modbus has them: eight a byte, the first one lowest (MODBUS Application Protocol V1.1b3, 6.1)."""
    packed = bytearray((len(states) + 7) // 8)
    for at, state in enumerate(states):
        packed[at // 8] |= state << at % 8
    return bytes(packed)


class ModbusBoard(Coils):
    """A board that speaks Modbus over TCP: functions 1, 5 and 15 (MODBUS Application Protocol V1.1b3; Messaging on
    TCP/IP V1.0b). `spoil` makes another answer of an answer."""

    def __init__(self, count=8, unit=1):
        self.unit, self.spoil = unit, lambda answer: answer
        super().__init__(count)

    def answer(self, heard):
        head = heard.read(7)
        if len(head) < 7:
            raise EOFError
        body = heard.read(int.from_bytes(head[4:6], "big") - 1)
        if head[6] != self.unit:
            return b""
        told = self.carry_out(body)
        return self.spoil(head[:4] + (len(told) + 1).to_bytes(2, "big") + head[6:] + told)

    def carry_out(self, body):
        function, first, value = body[0], int.from_bytes(body[1:3], "big"), int.from_bytes(body[3:5], "big")
        self.asked.append((function, first, value))
        count = 1 if function == 5 else value
        if first + count > len(self.coils):
            return bytes([function | 0x80, 2])
        if function == 1:
            states = bits(self.coils[first:first + count])
            return bytes([1, len(states)]) + states
        if function == 5:
            self.switch(first, [value == ON])
            return body
        if function == 15:
            self.switch(first, [body[6 + at // 8] >> at % 8 & 1 == 1 for at in range(count)])
            return body[:5]
        return bytes([function | 0x80, 1])


class LineBoard(Coils):
    """A board that obeys `set N 1`, `set N 0`, `clear` and `get N`, N from 1, and answers `ok`, `1` or `0`, each a
    line. `heeds` is called with each line: whether the board does it, and an answer in place of its own, if any."""

    heeds = staticmethod(lambda line: (True, b""))

    def answer(self, heard):
        line = heard.readline().decode().strip()
        if not line:
            raise EOFError
        self.asked.append(line)
        is_done, other = self.heeds(line)
        told = self.carry_out(*line.split()) if is_done else b"ok\n"
        return other or told

    def carry_out(self, word, channel="1", state="0"):
        at = int(channel) - 1
        if word == "get":
            return b"%d\n" % self.coils[at]
        if word == "clear":
            self.switch(0, [False] * len(self.coils))
        else:
            self.switch(at, [state == "1"])
        return b"ok\n"


class Meter(Peer):
    """A meter that answers `READ?` by one of these texts after another, and nothing else."""

    def __init__(self, *texts):
        self.texts, self.asked = list(texts), []
        super().__init__()

    def answer(self, heard):
        line = heard.readline()
        if not line:
            raise EOFError
        self.asked.append(line.decode().strip())
        if self.asked[-1] == "READ?" and self.texts:
            self.noted("read")
            return self.texts.pop(0).encode() + b"\n"
        return b""


@contextlib.contextmanager
def bench(tmp, readings=(), more=""):
    """A Modbus board of eight channels in slot 1, simulated relays in slot 3, all of group 1, and a meter in slot 4; and
    the file of this rack."""
    with ModbusBoard() as board, Meter(*readings) as meter:
        yield board, meter, rack_file(tmp, f'''
[slot.1]
card = "relays"
driver = "modbus-tcp"
address = "{board.address}"
channels = 8
group = 1
limit_ms = {LIMIT * 1000:.0f}
{more}
[slot.3]
card = "relays"
driver = "simulated"
channels = 10
group = 1

[slot.4]
card = "meter"
driver = "scpi"
address = "{meter.address}"
setup = ["*RST", "CONF:VOLT:DC 10"]
limit_ms = {PATIENCE * 1000}
''')


def rack_file(tmp, text):
    """A rack's file with these cards."""
    path = tmp / "rack.toml"
    path.write_text(f"version = 1\n{text}")
    return path
