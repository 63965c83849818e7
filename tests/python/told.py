"""What the tests of the Python package share: where it stands, and how they count."""
import importlib
import pathlib
import sys

ROOT = pathlib.Path(__file__).resolve().parents[2]
sys.dont_write_bytecode = True
sys.path[:0] = [str(ROOT / "python"), str(ROOT / "tests")]
from library import Count  # noqa: E402

tests = Count()
tell, end = tests.add, tests.tell


def module_of(name, what):
    """A module that may be missing: then it is told what isn't tested."""
    try:
        return importlib.import_module(name)
    except ImportError:
        print(f"skipped: {what}, since {name} isn't installed", flush=True)
        return None


def raised(call, given, named):
    """What a call raises, or None."""
    try:
        call(*given, **named)
    except Exception as fault:
        return fault
    return None
