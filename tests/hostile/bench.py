"""What the rows of tests/checks/hostile_files.py have in common: programs that are run and measured, folders, users, and others at work beside.
"""
import contextlib
import os
import random
import resource
import shutil
import signal
import stat
import subprocess
import tempfile
import time

from checks.salvage import written
from model.fork import Row
from measured import HANG, Measure
from places import INTERPOSE

# users and groups that this machine needn't know: a program runs as one of them, a file belongs to another, and a third has nothing to do with it
OWNER, OTHER, STRANGER = 12001, 12002, 12003
RACES = 250
# after so many seconds a program that waits is ended, and counts as hanging
WAITS = 120
# the most memory that a program gets that is measured, so that none takes that of the machine
MOST = 4 << 30
IS_ROOT = os.getuid() == 0

ROWS = [Row(b"TEXT", 128, b"Read me", 0, b"Hi"), Row(b"TEXT", 129, None, 4, b"more"), Row(b"STR ", 5, None, 0, b"\4five"), Row(b"snd ", 1, b"Beep", 0, bytes(40))]
GAME = written([(b"TEXT", ROWS[:2]), (b"STR ", ROWS[2:3]), (b"snd ", ROWS[3:])])
OTHER_GAME = written([(b"PICT", [Row(b"PICT", 200, None, 0, b"a picture")])])


class Skipped(str):
    """Why a row isn't tried here."""


class Took:
    """What a run did: its status, below zero for a signal; its outputs; the seconds of processor time and the kilobytes that it took."""

    def __init__(self, status, output, told, seconds=0.0, memory=0):
        self.status, self.output, self.told, self.seconds, self.memory = status, output, told.decode("utf-8", "replace"), seconds, memory

    def __str__(self):
        return f"status {self.status}, {self.output[:200]!r}, {self.told[:300]!r}"

    def ends_well(self):
        """What is wrong with its end, or None: no signal ends it, and no other status than those of the page."""
        if self.status in (-signal.SIGALRM, -signal.SIGXCPU):
            return "it hadn't ended in the time that it gets"
        return None if 0 <= self.status <= 4 else str(self)

    def says(self, *statuses, words=()):
        """What is wrong with an end that should be one of these, with these words on the error output, or None."""
        missing = [word for word in words if word not in self.told]
        return None if self.status in statuses and not missing else f"{self}" + (f"; it doesn't say {missing}" if missing else "")


class Bench:
    """The programs, and what runs them. They are copied to a folder that every user may read."""

    def __init__(self, folder, resfork, macheap):
        self.folder = folder
        os.chmod(folder, 0o755)
        self.resfork, self.macheap = (shutil.copy(program, os.path.join(folder, name)) for program, name in ((resfork, "resfork"), (macheap, "macheap")))
        self.measure, self.shim = Measure(folder), os.path.join(folder, "replace.so")
        subprocess.run([os.environ.get("CC", "cc"), "-O1", "-shared", "-fPIC", "-o", self.shim, os.path.join(INTERPOSE, "fail_replace.c"), "-ldl"], check=True)
        for path in (self.resfork, self.macheap, self.shim):
            os.chmod(path, 0o755)
        self.most = MOST
        if self.measured(["--version"], folder).status != 0:
            self.most = resource.RLIM_INFINITY

    def run(self, words, cwd, given=b"", program=None, **how):
        """Runs resfork, or another program; `how` is what subprocess takes: user, group, extra_groups, env, preexec_fn, stdout."""
        how = {"stdout": subprocess.PIPE, "stderr": subprocess.PIPE, **how}
        try:
            done = subprocess.run([program or self.resfork, *words], cwd=cwd, input=given, check=False, timeout=WAITS, **how)
        except subprocess.TimeoutExpired:
            return Took(-signal.SIGALRM, b"", b"")
        return Took(done.returncode, done.stdout or b"", done.stderr)

    def measured(self, words, cwd, seconds=HANG, **how):
        """Runs resfork, and measures what it takes. `how` is what subprocess takes."""
        return Took(*self.measure.run([self.resfork, *words], self.most, seconds, cwd=cwd, **how))

    def shimmed(self, words, cwd, given=b"", settings=(), **how):
        """Runs resfork over the shim of tests/interpose/fail_replace.c. The result is what it did, and the letters of its calls."""
        log = os.path.join(self.folder, "log")
        with open(log, "wb"):
            os.chmod(log, 0o666)
        environment = {**os.environ, "LD_PRELOAD": self.shim, "REPLACE_LOG": log, **{name: str(it) for name, it in dict(settings).items()}}
        took = self.run(words, cwd, given, env=environment, **how)
        return took, read(log).decode()

    def turns(self, words, make):
        """Ends a command before each of its calls in turn: what it did, its folder, and the turn. `make` makes the folder anew for each run."""
        with room() as folder:
            make(folder)
            _, calls = self.shimmed(words, folder)
        for turn, letter in enumerate(calls, 1):
            with room() as folder:
                make(folder)
                took, _ = self.shimmed(words, folder, settings={"REPLACE_END": turn})
                yield f"ended before call {turn}, {letter}", took, folder

    def cannot_be_bounded(self):
        """Why the memory of programs has no bound here, or None."""
        return None if self.most == MOST else Skipped("the program doesn't run with a bound on its memory")

    def knows_users(self):
        """Why programs can't be run as other users, or None."""
        if not IS_ROOT:
            return Skipped("only root has other users")
        try:
            took = self.run(["--version"], self.folder, **as_user(OWNER))
        except PermissionError:
            return Skipped("the program isn't theirs to run")
        return None if took.status == 0 else Skipped(f"other users can't run the program: {took.told:.80}")


def as_user(user, *groups):
    """What subprocess takes to run a program as a user with a group of the same number, and with these groups beside it."""
    return {"user": user, "group": user, "extra_groups": list(groups)}


@contextlib.contextmanager
def room(mode=0o777):
    """A new folder, which anybody may write."""
    with tempfile.TemporaryDirectory() as folder:
        os.chmod(folder, mode)
        yield folder


def read(*path):
    with open(os.path.join(*path), "rb") as file:
        return file.read()


def write(data, *path, mode=None, owner=None, group=None):
    """Writes a file, with this mode, owner and group."""
    path = os.path.join(*path)
    with open(path, "wb") as file:
        file.write(data)
    if owner is not None:
        os.chown(path, owner, owner if group is None else group)
    if mode is not None:
        os.chmod(path, mode)
    return path


def snapshot(folder):
    """All that is below a folder: kind, mode, owner, time of modification, and bytes or where a link leads."""
    found = {}
    for base, folders, files in os.walk(folder):
        for name in folders + files:
            path = os.path.join(base, name)
            at = os.lstat(path)
            what = os.readlink(path) if stat.S_ISLNK(at.st_mode) else read(path) if stat.S_ISREG(at.st_mode) else None
            found[os.path.relpath(path, folder)] = (at.st_ino, at.st_mode, at.st_uid, at.st_gid, at.st_mtime_ns, what)
    return found


def changed_in(before, after):
    """The names that aren't as they were."""
    return sorted(name for name in before.keys() | after.keys() if before.get(name) != after.get(name))


def left_in(folder):
    """The files that a replacement has left in a folder."""
    return sorted(name for name in os.listdir(folder) if name.startswith(".resfork-"))


@contextlib.contextmanager
def beside(step, user=None):
    """Another process does this again and again, as this user where there are users, until the end of the block."""
    child = os.fork()
    if child == 0:
        try:
            if user is not None and IS_ROOT:
                os.setgroups([])
                os.setgid(user)
                os.setuid(user)
            while True:
                with contextlib.suppress(OSError):
                    step()
        finally:
            os._exit(1)
    try:
        yield
    finally:
        os.kill(child, signal.SIGKILL)
        os.waitpid(child, 0)


def pause(most):
    """Waits for up to so many seconds, by chance."""
    time.sleep(random.random() * most)
