"""What runs the program on the parts of a map: processes of this machine, GNU parallel, or the workers of a Dask scheduler.

A job is what one run of the program is asked, in pieces of files, and where its answer goes. Beside an answer stands the SHA-256 of what was
asked for it (.asked), so an answer to anything else is none. What looks at an answer is a function of the job: what it makes of the answer, or None
where the answer isn't whole.
"""
import array
import collections
import concurrent.futures
import dataclasses
import hashlib
import itertools
import multiprocessing
import os
import pathlib
import re
import shlex
import shutil
import subprocess
import sys
import time

from .script import Refused

SILENT = {"stdout": subprocess.PIPE, "stderr": subprocess.DEVNULL}
VERSION_LINE = re.compile(r"polybool \S+")
WANTED = pathlib.Path(__file__).resolve().parents[2] / "VERSION"


# ---- jobs


class Pieces:
    """Stretches of files, one after another: those of a file that follow each other are read together."""

    def __init__(self):
        self.runs = []

    def add(self, path, begin, end):
        if not self.runs or self.runs[-1][0] != path:
            self.runs.append((path, array.array("q")))
        places = self.runs[-1][1]
        if places and places[-1] == begin:
            places[-1] = end
        else:
            places.extend((begin, end))

    def text(self):
        texts = []
        for path, places in self.runs:
            with open(path, "rb") as file:
                for begin, end in zip(places[::2], places[1::2]):
                    file.seek(begin)
                    texts.append(file.read(end - begin))
        return b"".join(texts)


@dataclasses.dataclass
class Job:
    """So many contours and an overlay, the path of the answer, and whatever looks at the answer and the progress need."""

    answer: str
    pieces: Pieces
    overlay: bytes
    contours: int
    given: object = None
    points: int = 0
    strip: int = -1

    def asked(self):
        return b"%s%s\n" % (self.pieces.text(), self.overlay)

    def prepare(self, text):
        """Drops an answer to another text."""
        mark, digest = pathlib.Path(f"{self.answer}.asked"), hashlib.sha256(text).hexdigest()
        if not mark.exists() or mark.read_text() != digest:
            pathlib.Path(self.answer).unlink(missing_ok=True)
            mark.write_text(digest)

    def told(self):
        """The bytes of the answer, None where there is none."""
        try:
            return pathlib.Path(self.answer).read_bytes()
        except FileNotFoundError:
            return None

    def keep(self, text):
        """Puts an answer in its place, once it is whole."""
        part = pathlib.Path(f"{self.answer}.part")
        part.write_bytes(text)
        os.replace(part, self.answer)


def run_job(call, job, tries, look):
    """Runs the program on a job until its answer is whole, or it was tried so often. What is made of the answer."""
    text = job.asked()
    job.prepare(text)
    for left in range(tries, 0, -1):
        found = look(job)
        if found is not None:
            return found
        ran = subprocess.run(call, input=text, **SILENT, check=False)
        if ran.returncode == 0:
            job.keep(ran.stdout)
    return look(job)


# ---- the program's version


def version_in(told):
    """The version that a finished process told, or why it didn't: the program may not have begun."""
    if isinstance(told, OSError):
        return f"there is no program ({told.strerror})"
    text = told.stdout.decode(errors="replace").strip()
    return text if told.returncode == 0 and VERSION_LINE.fullmatch(text) else "that program tells no version"


def version_of(program):
    """What a program of this machine tells of its version, or why it doesn't."""
    try:
        return version_in(subprocess.run([program, "--version"], stdin=subprocess.DEVNULL, **SILENT, check=False))
    except OSError as fault:
        return version_in(fault)


def look_at_versions(told):
    """Refuses where one of the machines has another version than this repository."""
    wanted = f"polybool {WANTED.read_text().strip()}"
    for machine, version in told:
        if version != wanted:
            raise Refused(f"{machine}: {version}, where {wanted} is wanted: (cd crates/polybool && rt run < /dev/null) builds it, --program names another")


# ---- progress


class Progress:
    """Tells in a line how far a call is, at most once a second."""

    def __init__(self, options):
        self.is_shown, self.told, self.length = options.progress, 0.0, 0

    def tell(self, text, is_first=False, is_last=False):
        now = time.monotonic()
        if self.is_shown and (is_first or is_last or now >= self.told + 1):
            self.told, text = now, f"spread: {text}"
            print(f"\r{text.ljust(self.length)}", end="\n" if is_last else "", file=sys.stderr, flush=True)
            self.length = len(text)


class BatchProgress(Progress):
    """How many batches are answered."""

    def begin(self, jobs):
        self.done, self.all = 0, len(jobs)
        self.tell(f"0 of {self.all} batches", is_first=True)

    def add(self, job):
        self.done += 1
        self.tell(f"{self.done} of {self.all} batches", is_last=self.done == self.all)


# ---- processes


def in_turn(pool, ahead, function, *columns):
    """What a function makes of each row of some columns, one after another. No more than so many are made ahead."""
    rows, made = zip(*columns), collections.deque()
    while True:
        made.extend(pool.submit(function, *row) for row in itertools.islice(rows, ahead - len(made)))
        if not made:
            return
        yield made.popleft().result()




def memory_of(process):
    """The most memory that a process had so far, in MB; None where the system doesn't tell."""
    try:
        told = re.search(r"^VmHWM:\s+([0-9]+) kB", pathlib.Path(f"/proc/{process}/status").read_text(), re.MULTILINE)
    except OSError:
        return None
    return told and int(told[1]) / 1024


def memory_told():
    """The most memory that this process had, and that one of those which it started had, as a text."""
    own = memory_of("self")
    others = [memory for process in multiprocessing.active_children() if (memory := memory_of(process.pid)) is not None]
    return "" if own is None or not others else f"; at most {own:.0f} MB here and {max(others):.0f} MB in a process beside"


# ---- engines: each has the jobs answered that aren't yet, and tells what is made of all answers, None of one that isn't whole


def engine_local(options, jobs, pool, look, progress):
    """Processes of this machine."""
    look_at_versions([(options.program, version_of(options.program))])
    progress.begin(jobs)
    asked = {pool.submit(run_job, options.call, job, options.tries, look): job for job in jobs}
    for answer in concurrent.futures.as_completed(asked):
        progress.add(asked[answer])
    return [answer.result() for answer in asked]


def write_script(job):
    """What is asked of a job as a file, where GNU parallel finds it."""
    text = job.asked()
    job.prepare(text)
    script = script_of(job)
    script.write_bytes(text)
    return str(script)


def script_of(job):
    return pathlib.Path(job.answer).with_suffix(".script")


def engine_parallel(options, jobs, pool, look, progress):
    """GNU parallel: jobs of this machine, or of those that --sshlogin names, on which the program has the same path. Its job log says
    which jobs are left of an earlier call: those of whole answers aren't."""
    if shutil.which("parallel") is None:
        raise Refused("GNU parallel is not installed: --engine parallel needs it")
    logins = [word for login in options.sshlogin for word in ("--sshlogin", login)]
    if logins:
        asked = ["parallel", "--will-cite", "--nonall", "--tag", *logins, f"{shlex.quote(options.program)} --version"]
        told = subprocess.run(asked, stdin=subprocess.DEVNULL, stdout=subprocess.PIPE, text=True, check=False).stdout.splitlines()
        look_at_versions([tuple(line.partition("\t")[::2]) for line in told])
        if len(told) < len(options.sshlogin):
            raise Refused(f"{len(options.sshlogin) - len(told)} of the machines of --sshlogin don't answer, or have no program {options.program}")
    else:
        look_at_versions([(options.program, version_of(options.program))])
    if not jobs:
        return []
    scripts = list(pool.map(write_script, jobs))
    log = pathlib.Path(jobs[0].answer).parent / "joblog"
    if log.exists():
        head, *rows = log.read_text().splitlines(keepends=True)
        whole = {str(number + 1) for number, found in enumerate(pool.map(look, jobs)) if found is not None}
        log.write_text("".join([head, *(row for row in rows if row.split("\t")[0] in whole)]))
    command = ["parallel", "--will-cite", "--joblog", str(log), "--resume-failed", *(["--bar"] if options.progress else [])]
    command += ["--retries", str(options.tries), "--jobs", str(options.processes)]
    if logins:
        command += [*logins, "--transferfile", "{}", "--return", "{.}.answer", "--cleanup"]
    command += [f"{shlex.join(options.call)} < {{}} > {{.}}.answer"]
    subprocess.run(command, input="".join(f"{script}\n" for script in scripts), text=True, check=False)
    return list(pool.map(look, jobs))


def engine_dask(options, jobs, pool, look, progress):
    """Workers of a Dask scheduler, on whose machines the program has the same path. They need nothing of this package: each runs the program alone."""
    try:
        import distributed
    except ImportError:
        raise Refused("Dask's distributed is not installed for this Python: --engine dask needs it") from None
    if options.scheduler is None:
        raise Refused("--engine dask needs --scheduler, as tcp://10.0.0.1:8786")
    try:
        client = distributed.Client(options.scheduler, timeout=options.wait)
    except (OSError, TimeoutError, ValueError) as fault:
        raise Refused(f"no scheduler answers at {options.scheduler}: {str(fault).partition(chr(10))[0]}") from None
    with client:
        if not client.scheduler_info()["workers"]:
            raise Refused(f"the scheduler at {options.scheduler} has no worker")
        told = client.run(subprocess.run, [options.program, "--version"], stdin=subprocess.DEVNULL, **SILENT, check=False, on_error="return")
        look_at_versions((worker, version_in(version)) for worker, version in told.items())
        progress.begin(jobs)
        asked = {}
        for job in jobs:
            text = job.asked()
            job.prepare(text)
            if look(job) is None:
                answer = client.submit(subprocess.run, options.call, input=text, **SILENT, check=True, pure=False, retries=options.tries)
                asked[answer] = job
            else:
                progress.add(job)
        for future in distributed.as_completed(asked):
            if future.status == "finished":
                asked[future].keep(future.result().stdout)
            progress.add(asked[future])
            future.release()
    return list(pool.map(look, jobs))


ENGINES = {"local": engine_local, "parallel": engine_parallel, "dask": engine_dask}


def answer_all(options, jobs, pool, look, progress):
    return ENGINES[options.engine](options, jobs, pool, look, progress)
