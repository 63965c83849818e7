"""Runs a built program with one growth of its storage refused, or with its bytes given and taken in pieces."""
import pathlib
import subprocess

HERE = pathlib.Path(__file__).resolve().parent


class Refuser:
    """Keeps, in a folder of the caller's, a library that stands before the system's: what it does is told in `refuse.c`."""

    def __init__(self, folder):
        self.library = f"{folder}/refuse.so"
        self.counted = pathlib.Path(folder) / "counted"
        subprocess.run(["cc", "-O1", "-shared", "-fPIC", "-o", self.library, HERE / "refuse.c"], check=True)

    def run(self, words, given=b"", refused=0):
        """The status of a run, what it wrote, and how many growths it asked for; none is refused where that is 0."""
        self.counted.unlink(missing_ok=True)
        ran = self.disturb(words, given, REFUSED=refused, COUNTED=self.counted)
        growths = int(self.counted.read_text()) if self.counted.exists() else 0
        return ran.returncode, ran.stdout + ran.stderr, growths

    def disturb(self, words, given, **asked):
        """A run of which the library is asked so."""
        env = {"LD_PRELOAD": self.library} | {name: str(value) for name, value in asked.items()}
        return subprocess.run(words, input=given, stdout=subprocess.PIPE, stderr=subprocess.PIPE, env=env, timeout=60)
