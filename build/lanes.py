"""Proofs of crates side by side, as memory allows; processors go first to those with the longest chain behind them."""
import contextlib
import fcntl
import os
import re
import shutil
import signal
import subprocess
import sys
import time
from typing import NamedTuple

from crates import Fault, free_memory, processors

DONE = re.compile(r"(?m)^checked \S+, (\d+) of (\d+)$")
TELLING = re.compile(r": error|: not proved|: no proof|could not tell|^rattle: |^logic=|^error|Killed")
MOST_LINES = 12  # of the prover's, where a proof fails
MOST_JOBS = 4  # processors that one proof makes use of
PRESSING = 0.3  # from 1, where others wait for a proof, to 0, where it has all the time: from here on it gets more jobs
NICEST = 19  # of a process that takes what others leave
MARGIN = 0.85  # of the free memory
LIKELY = 0.45  # of the memory that is reckoned
MORE = 1.2  # times what the last run took
EACH_JOB = 0.6  # of a proof's memory, for each further job


@contextlib.contextmanager
def alone(folder):
    """One build at a time works in this folder; a second one waits."""
    folder.mkdir(parents=True, exist_ok=True)
    at = os.open(folder, os.O_RDONLY)
    try:
        try:
            fcntl.flock(at, fcntl.LOCK_EX | fcntl.LOCK_NB)
        except BlockingIOError:
            print("another build is at work: waiting for its end", file=sys.stderr, flush=True)
            fcntl.flock(at, fcntl.LOCK_EX)
        yield
    finally:
        os.close(at)


class Cost(NamedTuple):
    """What a proof took: seconds, seconds of processor time, and memory in bytes."""
    seconds: float
    processor: float
    memory: float


class Proof:
    """A crate's proof as it runs: commands one after another, whose lines go to a file."""

    def __init__(self, folder, log, commands, niceness):
        self.folder, self.log, self.commands, self.niceness = folder, log, commands, niceness
        self.began, self.memory, self.status = time.monotonic(), 0, None
        self.processor, self.peak = 0, 0
        log.write_bytes(b"")
        self.start()

    def start(self):
        with open(self.log, "ab") as log:
            self.process = subprocess.Popen(self.commands.pop(0), cwd=self.folder, stdin=subprocess.DEVNULL, stdout=log,
                                            stderr=log, preexec_fn=self.step_back)

    def step_back(self):
        """In the new process: a group of its own, and no session, which Linux may give a share of its own."""
        os.setpgid(0, 0)
        os.nice(self.niceness)

    def is_over(self):
        """Whether the last command has ended, or one has failed; its status then stands in `status`."""
        number, ended, usage = os.wait4(self.process.pid, os.WNOHANG)
        if not number:
            return False
        self.status = self.process.returncode = os.waitstatus_to_exitcode(ended)
        self.processor += usage.ru_utime + usage.ru_stime
        self.peak = max(self.peak, usage.ru_maxrss * 1_024)
        if self.status == 0 and self.commands:
            self.start()
            return False
        return True

    def seconds(self):
        return time.monotonic() - self.began

    def cost(self):
        return Cost(self.seconds(), self.processor, self.peak)

    def text(self):
        return self.log.read_text(encoding="utf-8", errors="replace")

    def functions(self):
        """How many functions are checked, of how many."""
        found = DONE.findall(self.text())
        return " of ".join(found[-1]) if found else "begins"

    def end(self):
        if self.process.poll() is None:
            os.killpg(self.process.pid, signal.SIGKILL)
            self.process.wait()


class Lanes:
    """What is proved, what runs, and what waits for it, of the crates that are named, lowest first.

    `folder` keeps the libraries that were built, the prover's lines and what each crate took.
    """

    def __init__(self, crates, folder, names):
        self.crates, self.folder, self.names = crates, folder, names
        for name in names:
            crates.stamp(name)  # by the files as they are now
        self.costs = self.last_costs()
        self.done = {it for it in self.names if self.is_kept(it)}
        self.running, self.lone = {}, set()
        self.room, self.processors = MARGIN * free_memory(), processors()
        # Known once: a loop that asks for these takes a processor from the proofs.
        self.weights = {it: self.weight(it) for it in self.names}
        self.needs = {it: self.memory(it) for it in self.names}
        self.chains = {}
        for name in reversed(self.names):
            above = [self.chains[it] for it in self.chains if name in crates.own(it)]
            self.chains[name] = self.weights[name] + max(above, default=0)

    def last_costs(self):
        try:
            lines = (self.folder / "costs").read_text(encoding="utf-8").splitlines()
        except OSError:
            return {}
        return {name: Cost(*map(float, cost)) for name, *cost in map(str.split, lines)}

    def is_kept(self, name):
        stamp, whole = self.folder / f"{name}.stamp", self.folder / f"{name}.tar"
        return whole.is_file() and stamp.is_file() and stamp.read_text(encoding="utf-8") == self.crates.stamp(name)

    def unpack(self, name):
        at = self.crates.made(name)
        shutil.rmtree(at, ignore_errors=True)
        shutil.unpack_archive(self.folder / f"{name}.tar", at)

    def weight(self, name):
        """What a crate's proof is likely to take: the seconds of the last run, or by its lines."""
        return self.costs[name].seconds if name in self.costs else self.crates.lines(name, ".rt") / 10

    def memory(self, name):
        return MORE * self.costs[name].memory if name in self.costs else LIKELY * self.crates.memory(name)

    def left(self, name, spent):
        """The seconds until the program stands, were each crate proved as soon as those below it are."""
        return self.chains[name] - min(self.weights[name], spent)

    def ready(self):
        waiting = [it for it in self.names if it not in self.done and it not in self.running]
        found = [it for it in waiting if all(below in self.done for below in self.crates.own(it))]
        return sorted(found, key=lambda it: -self.chains[it])

    def begin(self):
        """Starts each proof for which there is memory beside the others."""
        ready = self.ready()
        longest = max((self.chains[it] for it in [*ready, *self.running]), default=0)
        for name in ready:
            room = self.room - sum(it.memory for it in self.running.values())
            need = self.needs[name]
            is_lone = name in self.lone or any(it in self.lone for it in self.running)
            if self.running and (is_lone or need > room):
                continue
            # What others wait for goes first. What nothing waits for yet fills the processors that this leaves.
            urgency = self.weights[name] / (self.weights[name] + longest - self.chains[name] or 1)
            most = min(MOST_JOBS, self.processors) if urgency > PRESSING and not is_lone else 1
            jobs = max(1, min(most, 1 + int((room / need - 1) / EACH_JOB)))
            self.start(name, jobs, need, urgency)

    def start(self, name, jobs, need, urgency):
        at = self.crates.made(name)
        shutil.rmtree(at, ignore_errors=True)
        at.mkdir(parents=True)
        commands = self.crates.commands(name, jobs)
        niceness = round(NICEST * (1 - urgency))
        proof = Proof(self.crates.root / "crates" / name, self.folder / f"{name}.log", commands, niceness)
        proof.memory = need * (1 + EACH_JOB * (jobs - 1))
        self.running[name] = proof

    def look(self):
        """Takes up the proofs that ended; gives whether there was one."""
        ended = [it for it, proof in self.running.items() if proof.is_over()]
        for name in ended:
            proof = self.running.pop(name)
            if proof.status == -signal.SIGKILL and name not in self.lone:
                self.lone.add(name)  # most likely for memory: once more, with nothing beside it
            elif proof.status or "\nlogic=proved " not in f"\n{proof.text()}":
                raise Fault(self.told(name, proof))
            elif not self.crates.is_unchanged(name):
                raise Fault(f"files of {name} changed while it was proved: run this again")
            else:
                self.keep(name, proof.cost())
        return bool(ended)

    def keep_library(self, name, made):
        """Keeps the library that stands in this folder, proved of the crate's files as they are."""
        shutil.make_archive(str(self.folder / name), "tar", made)
        (self.folder / f"{name}.stamp").write_text(self.crates.stamp(name), encoding="utf-8")

    def keep(self, name, cost):
        self.done.add(name)
        self.costs[name] = cost
        shutil.rmtree(self.crates.made(name) / "checked", ignore_errors=True)
        if name != self.crates.program:
            self.keep_library(name, self.crates.made(name))
        lines = [f"{it} {cost.seconds:.0f} {cost.processor:.0f} {cost.memory:.0f}\n" for it, cost in self.costs.items()]
        (self.folder / "costs").write_text("".join(lines), encoding="utf-8")

    def told(self, name, proof):
        """What matters of a proof that failed, and where all of it stands."""
        lines = proof.text().splitlines()
        telling = [it[:200] for it in lines if TELLING.search(it)] or lines[-3:]
        return "\n".join([f"{name} is not proved (status {proof.status}):", *telling[:MOST_LINES],
                          f"all that the prover said: {proof.log.relative_to(self.crates.root)}"])

    def progress(self):
        now = [f"{name} {proof.functions()}" for name, proof in self.running.items()]
        text = "; ".join([f"proved {len(self.done)} of {len(self.names)} crates", ", ".join(now)])
        if all(it in self.costs for it in self.names if it not in self.done):
            left = [self.left(it, proof.seconds()) for it, proof in self.running.items()]
            text += f"; {max(left, default=0) / 60:.0f} minutes left"
        return text

    @contextlib.contextmanager
    def prove(self, show):
        """Proves what is not proved yet, and tells how far it is; what that built stands until the block's end."""
        is_news = True
        try:
            for name in self.done:
                self.unpack(name)
            while len(self.done) < len(self.names):
                self.begin()
                show(self.progress(), is_news)
                time.sleep(0.5)
                is_news = self.look()
            yield
        finally:
            for proof in self.running.values():
                proof.end()
            for name in self.names:
                shutil.rmtree(self.crates.made(name), ignore_errors=True)
