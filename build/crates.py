"""The crates that a program is made from, and the kit's commands that prove, build and link them."""
import copy
import hashlib
import os
import pathlib
import re
import subprocess

NAME = "mainframe"  # the crate of the program that is run
PARTS = ("src", "specs", "proofs")
TARGET = "x86_64-unknown-linux-gnu"


class Fault(Exception):
    """What goes to standard error as it is, before the status 1."""


def digest(*texts):
    whole = hashlib.sha256()
    for text in texts:
        whole.update(hashlib.sha256(text if isinstance(text, bytes) else text.encode()).digest())
    return whole.hexdigest()


def kit_of(rt):
    """The kit's folder, in which the page stands that is to be read first."""
    try:
        told = subprocess.run([rt, "doc"], stdin=subprocess.DEVNULL, stdout=subprocess.PIPE, text=True, check=True)
        return pathlib.Path(told.stdout.strip()).parent.resolve(strict=True)
    except (OSError, subprocess.SubprocessError) as error:
        raise Fault(f"{rt} is not the command of a Rattle kit: {error}") from error


class Crates:
    """The list of crates, with what each is made from and by which commands, and which of them is the program, if one."""

    def __init__(self, root, rt, program=NAME):
        self.root, self.kit, self.program = root, kit_of(rt), program
        self.below, self.stamps = {}, {}
        for line in (root / "crates.txt").read_text(encoding="utf-8").splitlines():
            name, colon, libraries = line.partition("#")[0].partition(":")
            if colon:
                self.below[name.split()[0]] = libraries.split()
        if program and (program not in self.below or not self.is_program(program)):
            raise Fault(f"{program} is no program of crates.txt")

    def is_program(self, crate):
        return (self.root / "crates" / crate / "src/main.rt").is_file()

    def own(self, crate):
        """The crates of the repository that this one names."""
        return [it for it in self.below[crate] if it in self.below]

    def file(self):
        """The program's own file."""
        return self.root / "crates" / self.program / "out" / self.program

    def closure(self, crate=None):
        """The crates of the repository that this one, or the program, stands on, and itself, lowest first."""
        found, crate = [], crate or self.program
        for library in self.own(crate):
            found += [it for it in self.closure(library) if it not in found]
        return [*found, crate]

    def made(self, crate):
        """The folder of what its proof makes, while a program is proved. (`rt ci` refuses such files elsewhere.)"""
        return self.root / "crates" / crate / "out/rlib/proved"

    def files(self, crate, parts=PARTS):
        folders = [self.root / "crates" / crate / part for part in parts]
        return sorted(it for folder in folders for it in folder.rglob("*") if it.is_file())

    def stamp(self, crate, parts=PARTS):
        """The hash of all that a crate is made from: the kit, its files, and so the crates that it stands on."""
        if (crate, parts) not in self.stamps:
            texts = [(self.kit / "KIT-ID").read_bytes(), " ".join(self.below[crate])]
            for file in self.files(crate, parts):
                texts += [str(file.relative_to(self.root)), file.read_bytes()]
            self.stamps[crate, parts] = digest(*texts, *[self.stamp(it, parts) for it in self.own(crate)])
        return self.stamps[crate, parts]

    def is_unchanged(self, crate):
        """Whether its files are still those by which its hash was first asked for."""
        now = copy.copy(self)
        now.stamps = {}
        return now.stamp(crate) == self.stamp(crate)

    def sources(self, parts=PARTS):
        return self.stamp(self.program, parts)

    def lines(self, crate, ending):
        return sum(it.read_bytes().count(b"\n") for it in self.files(crate) if it.suffix == ending)

    def memory(self, crate):
        """The most memory in bytes that a proof with one job is likely to take, as `rt ci` reckons it."""
        below = self.closure(crate)[:-1]
        named = {it for name in [*below, crate] for it in self.below[name] if it not in self.below}
        loaded = [self.kit / f"rlibs/{it}.rlib/toolchain/checked.a" for it in named - {"io", "libc", "os"}]
        own = 1_000_000 * self.lines(crate, ".rt") + 200_000 * self.lines(crate, ".antt")
        beneath = 80_000 * sum(self.lines(it, ".rt") for it in below)
        of_kit = 5 * sum(it.stat().st_size for it in loaded if it.is_file())
        return 1_000_000_000 + own + beneath + min(of_kit, 2_500_000_000)

    def front(self, crate):
        """What each command of the prover has of a crate."""
        words = ["--crate-name", crate, "src/main.rt" if self.is_program(crate) else "src/lib.rt"]
        for name in ["std", *[it for it in self.below[crate] if it not in self.below]]:
            words += ["--extern", f"{name}={self.kit}/rlibs/{name}.rlib"]
        words += ["-L", f"dependency={self.kit}/rlibs"]
        for name in self.own(crate):
            words += ["--extern", f"{name}={self.made(name)}/{name}.rlib"]
        for name in self.closure(crate)[:-1]:
            words += ["-L", f"dependency={self.made(name)}"]
        return [*words, "--antt-project", f"{self.kit}/rattle/logic/antt-project.json", "--links", f"{crate}="]

    def check(self, crate, jobs):
        """The command that checks a crate, as far as it is the same for each check."""
        built = ["--logic-built", f"{self.kit}/logic_built", "--jobs", str(jobs)]
        return [f"{self.kit}/bin/rattle", "check", *self.front(crate), *built]

    def commands(self, crate, jobs):
        """The commands that prove a crate and build its library or the program; each has to succeed before the next."""
        made = self.made(crate)
        checked = f"{made}/checked"
        check = [*self.check(crate, jobs), "--progress"]
        build = [f"{self.kit}/bin/rattle", "build", *self.front(crate), "--crate-checked", checked]
        if crate != self.program:
            # The crates above load what a library states, and not its proofs.
            return [[*check, "--statements", "-o", checked], [*build, "-o", f"{made}/{crate}.rlib"]]
        code, toolchain = f"{made}/{crate}.o", ["--toolchain", f"{self.kit}/toolchain"]
        link = [f"{self.kit}/bin/rattle-link", "--target", TARGET, *toolchain, "-o", str(self.file()), code]
        link += [f"{self.kit}/c/libos_c.a", f"{self.kit}/c/liblibc_c.a"]
        return [[*check, "-o", checked], [*build, *toolchain, "--backend", "llvm", "-o", code], link]


def number_in(file, pattern):
    try:
        found = re.search(pattern, pathlib.Path(file).read_text(encoding="utf-8"))
    except OSError:
        return None
    return found and int(found[1])


def free_memory():
    """The memory in bytes that is free or holds files that the system lets go, within the control group's limit."""
    free = [1024 * number_in("/proc/meminfo", r"MemAvailable:\s+(\d+)")]
    group = "/sys/fs/cgroup"
    for limit, held in [("memory.max", ("memory.stat", r"(?m)^anon (\d+)")),
                        ("memory/memory.limit_in_bytes", ("memory/memory.stat", r"total_rss (\d+)"))]:
        limit, held = number_in(f"{group}/{limit}", r"(\d+)"), number_in(f"{group}/{held[0]}", held[1])
        if limit and held is not None:
            free.append(limit - held)
    return min(free)


def processors():
    """The processors to use: as RT_JOBS tells, else those that there are, within the control group's quota."""
    if os.environ.get("RT_JOBS", "").isdigit():
        return max(int(os.environ["RT_JOBS"]), 1)
    found = len(os.sched_getaffinity(0))
    quota, period = (number_in("/sys/fs/cgroup/cpu.max", it) for it in (r"^(\d+)", r" (\d+)"))
    return max(min(found, quota // period), 1) if quota and period else found
