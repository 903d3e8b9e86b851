"""Checks: what they compare and wait for, how they fail, and the count of those that passed and failed."""
import argparse
import concurrent.futures
import contextlib
import os
import subprocess
import time

PATIENCE = 60  # seconds after which something is stuck
SOON = 3  # seconds within which what is done at once is done, on a slow machine too
SLOW = 5  # seconds from which on a check's time is printed
MOST_GROWTH = 1_024  # kB that memory may grow by in the end, and a tenth
LONG = 1_000  # characters of two texts that are not shown whole
SHOWN = 60  # bytes, or characters of long texts, of those that differ


class Failure(Exception):
    """What went wrong."""


# ---- comparing


def same(what, got, wanted):
    """Fails where something differs; of bytes and of long texts it shows those from the first that differs on."""
    if got == wanted:
        return
    is_bytes = isinstance(got, bytes) and isinstance(wanted, bytes)
    if is_bytes or isinstance(got, str) and isinstance(wanted, str) and len(got) + len(wanted) > LONG:
        at = next((at for at, (a, b) in enumerate(zip(got, wanted)) if a != b), min(len(got), len(wanted)))
        raise Failure(f"{what} from {at} on: {got[at:at + SHOWN]!r} in place of {wanted[at:at + SHOWN]!r}")
    raise Failure(f"{what}: {got!r} in place of {wanted!r}")


def check_growth(settled, late):
    """Memory in kB, once it had settled and later, did not grow."""
    if late > settled * 1.1 + MOST_GROWTH:
        raise Failure(f"memory grew from {settled:.0f} to {late:.0f} kB")


def tell(what, wrong, rounds):
    """Fails where something went wrong in some of these rounds."""
    if wrong:
        raise Failure(f"{what} in {wrong} of {rounds} rounds")


# ---- time


@contextlib.contextmanager
def within(seconds, what):
    """What is done inside takes no longer than these seconds."""
    began = time.monotonic()
    yield
    if time.monotonic() > began + seconds:
        raise Failure(f"{what} took {time.monotonic() - began:.1f} s in place of {seconds}")


def comes(holds, seconds=SOON):
    """Whether something holds in time."""
    end = time.monotonic() + seconds
    while not holds():
        if time.monotonic() > end:
            return False
        time.sleep(0.001)
    return True


def wait_until(what, holds):
    """Looks again and again whether something holds."""
    end = time.monotonic() + PATIENCE
    while not holds():
        if time.monotonic() > end:
            raise Failure(f"{what} does not happen")
        time.sleep(0.05)


def wait_until_same(what, look, wanted, seconds):
    """Looks again and again until it sees what is wanted."""
    end = time.monotonic() + seconds
    while look() != wanted:
        if time.monotonic() > end:
            raise Failure(f"{what}: {look()!r} in place of {wanted!r}, {seconds} s later")
        time.sleep(0.01)


# ---- the checks of a part


def arguments(text, **numbers):
    """What the command line of a part gives: PROGRAM, NAME .., and these numbers, each of which has a default."""
    parser = argparse.ArgumentParser(description=text, formatter_class=argparse.RawDescriptionHelpFormatter)
    parser.add_argument("program", metavar="PROGRAM", type=os.path.abspath)
    parser.add_argument("names", metavar="NAME", nargs="*", help="only checks with one of these in their names")
    for name, default in numbers.items():
        parser.add_argument(f"--{name}", metavar="N", type=int, default=default, help=f"{default} unless given")
    return parser.parse_intermixed_args()


def named(checks, names):
    """Of these checks, each a name and a function, those that have one of the names in their own; without names all."""
    return [(name, check) for name, check in checks if not names or any(word in name for word in names)]


def fault_of(name, check):
    """What a check says of its failure, nothing where it passes; and in a line, how long a slow one took."""
    began = time.monotonic()
    try:
        check()
    except (Failure, OSError, subprocess.SubprocessError) as failure:
        return f"{name}: {type(failure).__name__}: {failure}"
    finally:
        if time.monotonic() > began + SLOW:
            print(f"{name} took {time.monotonic() - began:.0f} s", flush=True)
    return ""


def make(checks, names=(), at_once=1):
    """Makes checks, one after another or several at once. It prints a line for each failure and, last,
    `N passed, M failed`, and gives the status of the command."""
    faults = []
    with concurrent.futures.ThreadPoolExecutor(at_once) as pool:
        each = pool.map if at_once > 1 else map
        for fault in each(lambda check: fault_of(*check), named(checks, names)):
            faults.append(fault)
            print(fault, end="\n" if fault else "", flush=True)
    print(f"{faults.count('')} passed, {len(faults) - faults.count('')} failed")
    return 0 if faults and not any(faults) else 1
