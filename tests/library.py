"""The libraries for C as tests want them, and suites that count their tests."""
import os
import pathlib
import re
import subprocess
import threading

ROOT = pathlib.Path(__file__).resolve().parents[1]
NAME = "polygon_c"


def ran(words, **how):
    """Runs a program, and answers what it said and its status."""
    try:
        return subprocess.run(words, stdin=subprocess.DEVNULL, stdout=subprocess.PIPE, stderr=subprocess.STDOUT, text=True, errors="replace", **how)
    except subprocess.TimeoutExpired as late:
        return subprocess.CompletedProcess(words, 124, f"{late.stdout}\nit took too long")


class Count:
    """Tests that passed and failed. Those that failed are told as they come."""

    def __init__(self):
        self.passed = self.failed = 0
        self.lock = threading.Lock()

    def add(self, name, is_well, said=""):
        self.count(bool(is_well), not is_well)
        if not is_well:
            print(f"failed: {name}\n{said[-3000:]}".rstrip(), flush=True)
        return is_well

    def count(self, passed, failed):
        with self.lock:
            self.passed, self.failed = self.passed + passed, self.failed + failed

    def tests_of(self, name, words, seconds=170, **how):
        """Runs a program whose last line is 'N passed, M failed', and counts its tests."""
        done = ran(words, timeout=seconds, **how)
        told = re.search(r"^(\d+) passed, (\d+) failed\n?\Z", done.stdout, re.M)
        if told is None or (done.returncode == 0) != (told[2] == "0"):
            self.add(name, False, f"status {done.returncode}\n{done.stdout}")
            return
        self.count(int(told[1]), int(told[2]))
        if told[2] != "0":
            print(f"{name}:\n{done.stdout[-3000:]}", flush=True)
        for line in re.findall(r"^(?:skipped|measured): .*$", done.stdout, re.M):
            print(line, flush=True)

    def tell(self):
        """The last line, and the status to end with."""
        print(f"{self.passed} passed, {self.failed} failed")
        return 1 if self.failed or not self.passed else 0


def libraries_of(given, folder, count):
    """A folder with the libraries, as package/libraries makes it: the one that is given, or one that is made."""
    if given:
        return given.resolve()
    done = ran([ROOT / "package/libraries", folder])
    count.add("the libraries are made", done.returncode == 0, done.stdout)
    return folder


def shared(given, folder, count):
    """The shared library: the one that is given, that of a folder that is given, or one that is made."""
    return given.resolve() if given and given.is_file() else libraries_of(given, folder, count) / f"lib{NAME}.so"


def environment(library):
    """What Python is called with, so that its module finds the library."""
    return {**os.environ, "BAPYERU_LIBRARY": str(library)}
