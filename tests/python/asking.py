"""How tests ask the command line: within this process, or by one of its own."""
import contextlib
import io
import subprocess
import sys

from told import ROOT

from bapyeru import geo


def asked(*words, given=b""):
    """The status, what was written as bytes, and what was said, of a call in this process."""
    out, said, kept = io.TextIOWrapper(io.BytesIO()), io.StringIO(), sys.stdin
    sys.stdin = io.TextIOWrapper(io.BytesIO(given))
    try:
        with contextlib.redirect_stdout(out), contextlib.redirect_stderr(said):
            status = geo.main(list(map(str, words)))
            out.flush()
    finally:
        sys.stdin = kept
    return status, out.buffer.getvalue(), said.getvalue()


def process(*words, **how):
    """The same of the script, by a process."""
    how = {"stdout": subprocess.PIPE, "stderr": subprocess.PIPE, "timeout": 60, **how}
    ran = subprocess.run([sys.executable, ROOT / "python/geo", *map(str, words)], **how)
    return ran.returncode, ran.stdout, ran.stderr.decode()
