"""A library that refuses growths of memory, and the program with it."""
import itertools
import os
import pathlib
import subprocess

from support.checking import PATIENCE

LIBRARY = r"""
#define _GNU_SOURCE
#include <dlfcn.h>
#include <stdlib.h>
#include <unistd.h>
static long left;
static int alone, told, teller;
__attribute__((constructor)) static void begin(void) {
  const char *first = getenv("GROWTH"), *one = getenv("GROWTH_ALONE"), *file = getenv("GROWTH_TELLS");
  left = first ? atol(first) : 0;
  alone = one != 0;
  teller = file ? atoi(file) : 0;
}
static int is_refused(void) {
  if (left == 0) return 0;
  if (left > 1) { left--; return 0; }
  if (alone) left = 0;
  if (!told) { told = 1; if (write(teller, "!", 1) < 0) _exit(99); }
  return 1;
}
void *malloc(size_t size) {
  static void *(*next)(size_t);
  if (!next) next = (void *(*)(size_t))dlsym(RTLD_NEXT, "malloc");
  return is_refused() ? 0 : next(size);
}
void *realloc(void *old, size_t size) {
  static void *(*next)(void *, size_t);
  if (!next) next = (void *(*)(void *, size_t))dlsym(RTLD_NEXT, "realloc");
  return is_refused() ? 0 : next(old, size);
}
"""


def library_in(folder):
    """The library that refuses, made in this folder."""
    pathlib.Path(f"{folder}/growths.c").write_text(LIBRARY)
    library = f"{folder}/growths.so"
    subprocess.run(["cc", "-O1", "-shared", "-fPIC", "-o", library, f"{folder}/growths.c", "-ldl"], check=True)
    return library


class Outcome:
    """The status of a run, and what it wrote."""

    def __init__(self, done):
        self.status, self.told, self.fault = done.returncode, done.stdout, done.stderr

    def __eq__(self, other):
        return (self.status, self.told, self.fault) == (other.status, other.told, other.fault)

    def __repr__(self):
        return f"status {self.status}, {self.told!r}, {self.fault!r}"


class Program:
    """The program, and the library that refuses."""

    def __init__(self, path, library):
        self.path, self.library = path, library

    def run(self, words, typed):
        return Outcome(subprocess.run([self.path, *words], input=typed, capture_output=True, timeout=PATIENCE))

    def refusing(self, words, typed, number, alone):
        """What the program does where this growth is refused, and whether it was."""
        reader, writer = os.pipe()
        environment = {"LD_PRELOAD": self.library, "GROWTH": str(number), "GROWTH_TELLS": str(writer),
                       **({"GROWTH_ALONE": "1"} if alone else {})}
        try:
            done = subprocess.run([self.path, *words], input=typed, capture_output=True, timeout=PATIENCE,
                                  env=environment, pass_fds=[writer])
            os.close(writer)
            writer = -1
            return Outcome(done), os.read(reader, 1) != b""
        finally:
            os.close(reader)
            if writer >= 0:
                os.close(writer)

    def outcomes(self, words, typed, alone):
        """Each growth's number, and what the program does where that growth is refused, until none is."""
        for number in itertools.count(1):
            outcome, was_refused = self.refusing(words, typed, number, alone)
            if not was_refused:
                return
            yield number, outcome
