"""Scan programs: nested ones and random ones, and a plain interpreter of their steps."""

# Two closings of 1!1, in each of them three of 2!1, with a reading each.
HELD = ["set 0 2", "close 1!1", "set 1 3", "close 2!1", "read", "open 2!1", "loop 1 3", "open 1!1", "loop 0 1", "halt"]
SHORTEST, LONGEST = 1, 40  # waits and readings of a random one
FREE = [f"2!{n}" for n in range(1, 17)]  # of no group
GROUPED = [f"{slot}!{n}" for slot, count in [(1, 20), (3, 10)] for n in range(1, count + 1)]  # of one group


def code(*steps, version=2):
    """The listing of these steps."""
    return "".join(f"{line}\n" for line in (f"scan {version}", "meter 4", *steps))


class Writer:
    """Writes a random program whose every position is opened in the loop in which it was closed."""

    def __init__(self, chance):
        self.chance, self.steps, self.closed, self.counters = chance, [], [], 0

    def body(self, depth):
        for _ in range(self.chance.randint(1, 3)):
            self.chance.choice([self.awaits, self.awaits, self.closes, self.turns])(depth)

    def awaits(self, _):
        self.steps.append(self.chance.choice(["wait trig", "read", "wait trig", "read", "pause 20"]))

    def position(self):
        """Channels that may be closed now: of the group at most one, beside none of it."""
        found = self.chance.sample([chan for chan in FREE if chan not in self.closed], self.chance.randint(0, 2))
        if not any(chan in GROUPED for chan in self.closed) and self.chance.random() < 0.7:
            found.append(self.chance.choice(GROUPED))
        self.chance.shuffle(found)
        return found

    def closes(self, depth):
        found = self.position()
        if not found or depth == 4:
            return self.awaits(depth)
        self.steps.append("close " + "&".join(found))
        self.closed += found
        self.body(depth + 1)
        self.closed = [chan for chan in self.closed if chan not in found]
        self.opens(found)

    def opens(self, channels):
        """In an order of their own, by one step or each by its own."""
        self.chance.shuffle(channels)
        positions = self.chance.choice([["&".join(channels)], channels])
        self.steps += [f"open {position}" for position in positions]

    def turns(self, depth):
        if self.counters == 4 or depth == 4:
            return self.awaits(depth)
        counter, self.counters = self.counters, self.counters + 1
        self.steps.append(f"set {counter} {self.chance.randint(1, 3)}")
        to = len(self.steps)
        self.awaits(depth)
        self.body(depth + 1)
        self.steps.append(f"loop {counter} {to}")
        self.counters = counter


def items_of(steps):
    """What the steps do up to halt, loops as often as their counters say."""
    counters, at, items = [0] * 4, 0, []
    while steps[at] != "halt":
        word, *parts = steps[at].split()
        at += 1
        if word == "set":
            counters[int(parts[0])] = int(parts[1])
        elif word == "loop":
            counters[int(parts[0])] -= 1
            at = int(parts[1]) if counters[int(parts[0])] else at
        else:
            items.append((word, parts[0].split("&") if word in ("close", "open") else []))
    return items


def listed(channels):
    """The channels as ROUTe:CLOSe:STATe? tells them."""
    return f"(@{','.join(sorted(channels, key=lambda chan: tuple(map(int, chan.split('!')))))})"


def awaited(items):
    """At which of these items the scan awaits something."""
    return [at for at, (word, _) in enumerate(items) if word in ("wait", "read", "pause")]


def closed_after(items):
    """The channels that these items leave closed."""
    closed = []
    for word, channels in items:
        if word == "close":
            closed += channels
        elif word == "open":
            closed = [chan for chan in closed if chan not in channels]
    return closed


def random_program(chance):
    """Steps that await something, and not too much."""
    while True:
        writer = Writer(chance)
        writer.body(0)
        steps = [*writer.steps, "halt"]
        if SHORTEST <= len(awaited(items_of(steps))) <= LONGEST:
            return steps
