"""Checks that a file which a program replaces is the old one or the new one, whatever fails.

Each call that replaces a file fails in turn, then that one and all after it, and the program is ended before it; a write is made in two parts, the
disk has room for a part of the bytes, and so has the limit of a file's size. Wanted each time: the path has the old bytes or the new ones, status 0
comes with the new ones alone, and a file that is left beside has a name that the message shows, unless the program was ended: then one file is left
at most, and the next change removes it. A link stays a link, the mode and the owner stay as far as they may, a lock of another program is reported,
a file that another program puts at the path meanwhile isn't replaced, and where nothing changes no file is made. Needs a C compiler: `cc`, or $CC.
"""
import fcntl
import functools
import os
import resource
import shutil
import subprocess
import tempfile

from checks.kept import KEPT
from model.messages import message, pattern
from model.toolbox import File, Row
from places import INTERPOSE

SHIM = os.path.join(INTERPOSE, "fail_replace.c")
ENDED = -9
# what the names of new files begin with, and a user and a group of whom the machine need know nothing
NEW = ".resfork-"
STRANGER = 54321


class Job:
    """A command that makes the new bytes of the file `f` from files in its folder, and how many writes to files it may take."""

    def __init__(self, what, words, files, new, backup=None, other=None):
        self.what, self.words, self.files, self.new, self.backup = what, words, files, new, backup
        # a file that another program may put there meanwhile, and what the command makes of that
        self.other = other

    @property
    def old(self):
        """The bytes of `f` before, or None where it isn't there."""
        return self.files.get("f")


class Run:
    """What a program did in a folder of a job's files: its status, its message, its calls and the files after it."""

    def __init__(self, bench, job, ready=None, limit=None, room=None, user=None, **settings):
        with tempfile.TemporaryDirectory(dir=room) as folder:
            for name, data in job.files.items():
                with open(os.path.join(folder, name), "wb") as file:
                    file.write(data)
                os.chmod(file.name, 0o644)
            self.said = ready(folder) if ready else None
            log = os.path.join(bench.folder, "log")
            with open(log, "wb"):
                pass
            shim = {"LD_PRELOAD": bench.shim, "REPLACE_LOG": log, **{name: str(it) for name, it in settings.items()}}
            # the log is a file too, so the shim stays away where files have a limit, and where another user runs the program
            environment = {**os.environ, **(shim if limit is None and user is None else {})}

            def limited():
                if limit is not None:
                    resource.setrlimit(resource.RLIMIT_FSIZE, (limit, limit))
                if user is not None:
                    os.setgroups([])
                    os.setgid(user)
                    os.setuid(user)

            if user is not None:
                os.chmod(folder, 0o777)
            program = bench.program if user is None else bench.public()
            done = subprocess.run([program, *job.words], cwd=folder, capture_output=True, env=environment, check=False, preexec_fn=limited)  # pylint: disable=subprocess-popen-preexec-fn
            self.status, self.message = done.returncode, done.stderr.decode("utf-8", "replace")
            with open(log, encoding="ascii") as file:
                self.calls = file.read()
            self.names = set(os.listdir(folder))
            self.files = {}
            for name in self.names:
                if os.path.isfile(os.path.join(folder, name)):
                    with open(os.path.join(folder, name), "rb") as file:
                        self.files[name] = file.read()
            path = os.path.join(folder, "f")
            found = os.stat(path) if os.path.exists(path) else None
            self.mode = found.st_mode & 0o7777 if found else None
            self.owner = (found.st_uid, found.st_gid) if found else None
            self.links = {name for name in os.listdir(folder) if os.path.islink(os.path.join(folder, name))}

    def fault(self, job, *wanted):
        """What isn't as it should be, or None. The file has one of these bytes, the new ones where the status is 0."""
        now = self.files.get("f")
        if now not in wanted:
            return f"the file has {now!r:.60} after {self.calls}, status {self.status}: {self.message}"
        if self.status == 0 and now != job.new or self.status != 0 and self.status != ENDED and not self.message:
            return f"status {self.status} with {now!r:.60} after {self.calls}: {self.message}"
        if sum(name.startswith(NEW) for name in self.files) > 1:
            return f"more than one file was left after {self.calls}"
        if self.status not in (0, 4, ENDED):
            return f"status {self.status} after {self.calls}: {self.message}"
        for name, data in self.files.items():
            if name in job.files and name != "f":
                if data != job.files[name]:
                    return f"{name} was changed after {self.calls}"
            elif name == job.backup:
                if data != job.old:
                    return f"the backup has {data!r:.60} after {self.calls}"
            elif name != "f" and self.status != ENDED and name not in self.message:
                return f"{name} was left after {self.calls} and isn't told: {self.message}"
        return None


class Bench:
    """A program, and the shim between it and the C library."""

    def __init__(self, program, folder):
        self.program, self.folder = program, folder
        self.shim = os.path.join(folder, "replace.so")
        subprocess.run([os.environ.get("CC", "cc"), "-O1", "-shared", "-fPIC", "-o", self.shim, SHIM, "-ldl"], check=True)

    def public(self):
        """The program at a path that each user may run."""
        os.chmod(self.folder, 0o711)
        path = os.path.join(self.folder, "public")
        if not os.path.exists(path):
            shutil.copy(self.program, path)
            os.chmod(path, 0o755)
        return path

    @functools.cached_property
    def no_users(self):
        """Why the program can't be run as another user, or files be given to one; or None."""
        if os.getuid() != 0:
            return "only root has other users"
        try:
            os.chown(self.shim, STRANGER, STRANGER + 1)
            subprocess.run([self.public(), "--version"], user=STRANGER, group=STRANGER, extra_groups=[], stdout=subprocess.DEVNULL, check=True)
        except (OSError, subprocess.CalledProcessError) as error:
            return str(error)
        finally:
            os.chown(self.shim, 0, 0)
        return None

    def swept(self, job):
        """Each call fails in turn, and so do all from it on; before each the program is ended; each write is made in two parts."""
        whole = Run(self, job)
        yield "as it is", whole.fault(job, job.new)
        if job.backup and job.backup not in whole.files:
            yield "the backup", "there is none"
        for turn, letter in enumerate(whole.calls, 1):
            for what, settings, wanted in (
                ("fails", {"REPLACE_FAIL": turn}, (job.old, job.new)),
                ("finds no room", {"REPLACE_FAIL": turn, "REPLACE_ERROR": 28}, (job.old, job.new)),
                ("and all after it fail", {"REPLACE_FROM": turn}, (job.old, job.new)),
                ("is never made", {"REPLACE_END": turn}, (job.old, job.new)),
                *([("is made in parts", {"REPLACE_PART": turn}, (job.new,))] if letter == "w" else []),
            ):
                run = Run(self, job, **settings)
                fault = run.fault(job, *wanted)
                if fault is None and "n" not in whole.calls[turn - 1 :].removesuffix("Y") and what == "fails" and letter == "Y" and job.backup is None:
                    # after the rename the new file is there, and what isn't sure is reported
                    fault = None if run.files["f"] == job.new and pattern("not synced").search(run.message) else f"after {run.calls} it says {run.message}"
                yield f"call {turn}, {letter}, {what}", fault

    def full(self, job):
        """The disk takes so many bytes, and a file may be so long."""
        size = len(job.new)
        for room in sorted({0, 1, size // 2, size - 1}):
            run = Run(self, job, REPLACE_ROOM=room)
            yield f"room for {room} bytes", run.fault(job, job.old) or (None if run.status == 4 and pattern("new unwritten").search(run.message) else f"status {run.status}")
            run = Run(self, job, limit=room)
            yield f"files of {room} bytes at most", run.fault(job, job.old) or (None if run.status == 4 and pattern("new unwritten").search(run.message) else f"status {run.status}: {run.message}")

    def small_disk(self, job):
        """A real disk that is too small, where the machine lets one be mounted."""
        room = os.path.join(self.folder, "disk")
        os.makedirs(room, exist_ok=True)
        size = 4096 * (2 + sum(-(-len(it) // 4096) for it in job.files.values()))
        mounted = subprocess.run(["mount", "-t", "tmpfs", "-o", f"size={size}", "tmpfs", room], capture_output=True, check=False)
        if mounted.returncode:
            return
        try:
            run = Run(self, job, room=room)
            yield "a disk of a few pages", run.fault(job, job.old, job.new)
        finally:
            subprocess.run(["umount", room], check=False)

    def kept(self, job):
        """The mode stays, and a link."""
        for mode in (0o600, 0o640, 0o755, 0o4711):
            run = Run(self, job, ready=lambda folder, mode=mode: os.chmod(os.path.join(folder, "f"), mode))
            yield f"the mode {mode:o}", run.fault(job, job.new) or (None if run.mode == mode else f"it is {run.mode:o}")

        def linked(folder):
            os.rename(os.path.join(folder, "f"), os.path.join(folder, "real"))
            os.symlink("real", os.path.join(folder, "f"))

        job = Job(job.what, job.words, {**job.files}, job.new, job.backup)
        run = Run(self, job, ready=linked)
        real = run.files.pop("real")
        backup = run.files.pop("real~", job.old)
        ok = run.status == 0 and run.links == {"f"} and real == job.new and backup == job.old
        yield "a link", None if ok else f"status {run.status}, links {run.links}, it has {real!r:.60}: {run.message}"

    def owned(self, job):
        """The owner stays where the program may give the file away, and else nobody gets more than before."""
        if self.no_users:
            return
        for mode in (0o640, 0o4711, 0o2755):

            def given(folder, mode=mode):
                os.chown(os.path.join(folder, "f"), STRANGER, STRANGER + 1)
                os.chmod(os.path.join(folder, "f"), mode)

            run = Run(self, job, ready=given)
            ok = run.owner == (STRANGER, STRANGER + 1) and run.mode == mode
            yield f"the owner, mode {mode:o}", run.fault(job, job.new) or (None if ok else f"it belongs to {run.owner}, mode {run.mode:o}")
        # the owner and the group are others then: no special bits, and the group and others get what both had
        for mode, wanted in ((0o666, 0o666), (0o676, 0o666), (0o4756, 0o744), (0o6766, 0o766)):

            def others(folder, mode=mode):
                os.chmod(os.path.join(folder, "f"), mode)

            run = Run(self, job, ready=others, user=STRANGER)
            ok = run.owner == (STRANGER, STRANGER) and run.mode == wanted
            yield f"another user's file, mode {mode:o}", run.fault(job, job.new) or (None if ok else f"it belongs to {run.owner}, mode {run.mode:o}")

    def busy(self, job):
        """A file that can't be renamed over, as where another is mounted on it."""
        run = Run(self, job, REPLACE_BUSY="f")
        ok = run.status == 4 and pattern("not renamed").search(run.message) and not any(name.startswith(NEW) for name in run.names)
        yield "where something is mounted", run.fault(job, job.old) or (None if ok else f"status {run.status}, {run.names}: {run.message}")

    def swept_up(self, job):
        """What a killed program left is removed, and nothing else."""
        held = []

        def left(folder):
            for number in (0, 7, 8):
                with open(os.path.join(folder, f"{NEW}{number}.new"), "wb") as file:
                    file.write(b"left")
            held.append(open(os.path.join(folder, f"{NEW}8.new"), "rb"))  # pylint: disable=consider-using-with
            fcntl.flock(held[0], fcntl.LOCK_EX)
            os.mkdir(os.path.join(folder, f"{NEW}9.new"))
            os.symlink("f", os.path.join(folder, f"{NEW}10.new"))
            with open(os.path.join(folder, f"{NEW}x.new"), "wb") as file:
                file.write(b"another's")

        run = Run(self, job, ready=left)
        held[0].close()
        there = {name for name in run.names if name.startswith(NEW)}
        ok = run.status == 0 and run.files["f"] == job.new and there == {f"{NEW}{it}.new" for it in (8, 9, 10, "x")}
        yield "what was left", None if ok else f"status {run.status}, {there}: {run.message}"

    def moved(self, job, other, wanted):
        """Another program puts another file at the path before any call but the rename: that one isn't lost."""
        whole = Run(self, job)
        job = Job(job.what, job.words, {**job.files, "other": other}, job.new, job.backup)
        for turn, letter in enumerate(whole.calls, 1):
            if letter != "n":
                run = Run(self, job, REPLACE_SWAP=turn, REPLACE_SWAP_BY="other", REPLACE_SWAP_TO="f")
                now = run.files.get("f")
                yield f"another file before call {turn}, {letter}", None if now in (other, wanted) else f"the file has {now!r:.60} after {run.calls}: {run.message}"

    def locked(self, job):
        """Another program holds the lock."""

        def lock(folder):
            held = open(os.path.join(folder, "f"), "rb")  # pylint: disable=consider-using-with
            fcntl.flock(held, fcntl.LOCK_EX)
            return held

        run = Run(self, job, ready=lock)
        run.said.close()
        yield "a lock", run.fault(job, job.old) or (None if run.status == 4 and message("in use") in run.message else f"status {run.status}: {run.message}")

    def unwritable(self, job):
        """A folder in which no file can be made: the message names -o."""
        if os.getuid() != 0:
            run = Run(self, job, ready=lambda folder: os.chmod(folder, 0o555))
            yield "a folder that can't be written", run.fault(job, job.old) or (None if pattern("none beside").search(run.message) else run.message)


def unchanged(bench, job):
    """A command that changes nothing opens the file and no other."""
    run = Run(bench, job)
    fault = run.fault(job, job.old)
    return fault or (None if not set(run.calls) & set("cwhmynYu") and run.status == 0 else f"status {run.status}, its calls were {run.calls}")


def into_stream(bench, job, victim):
    """Another program puts a file in the place of a pipe that is to be written: it isn't emptied."""

    def piped(folder):
        os.mkfifo(os.path.join(folder, "f"))
        return os.open(os.path.join(folder, "f"), os.O_RDWR)

    whole = Run(bench, job, ready=piped)
    os.close(whole.said)
    yield "as it is", None if whole.status == 0 else f"status {whole.status}: {whole.message}"
    job = Job(job.what, job.words, {**job.files, "other": victim}, job.new)
    for turn, letter in enumerate(whole.calls, 1):
        run = Run(bench, job, ready=piped, REPLACE_SWAP=turn, REPLACE_SWAP_BY="other", REPLACE_SWAP_TO="f")
        os.close(run.said)
        now = run.files.get("f")
        yield f"a file before call {turn}, {letter}", None if now in (victim, job.new) else f"the file has {now!r:.60} after {run.calls}: {run.message}"


def faults(bench, jobs, same, streams):
    for job, victim in streams:
        for what, fault in into_stream(bench, job, victim):
            yield f"{job.what}: {what}", fault
    for job in jobs:
        for rows in (bench.swept, bench.full, bench.small_disk):
            for what, fault in rows(job):
                yield f"{job.what}: {what}", fault
        if job.old is not None:
            for rows in (bench.kept, bench.owned, bench.locked, bench.unwritable, bench.busy, bench.swept_up):
                for what, fault in rows(job):
                    yield f"{job.what}: {what}", fault
        if job.other is not None:
            for what, fault in bench.moved(job, *job.other):
                yield f"{job.what}: {what}", fault
    for job in same:
        yield f"{job.what}, where nothing changes", unchanged(bench, job)


def told(bench, jobs, same, streams):
    """Prints the faults, and returns the status of the check."""
    failures, count = [], 0
    for what, fault in faults(bench, jobs, same, streams):
        count += 1
        failures += [f"{what}: {fault}"] if fault else []
    for it in failures:
        print(it)
    if bench.no_users:
        print(f"replaced: other users' files aren't tried: {bench.no_users}")
    print(f"replaced: {count - len(failures)} runs as they should be, {len(failures)} not")
    return 1 if failures or not count else 0


def containers():
    """A fork of two resources as it is, and in each container: the kind, and the file."""
    fork = File(1, [Row(b"TEXT", 128, b"first", 0, b"Hi"), Row(b"TEXT", 129, None, 0x20, bytes(range(256)) * 20)]).fork(lambda row: row.disk)
    yield "a fork", fork
    for keep, kind, _ in KEPT:
        yield kind, keep(fork)


def jobs_of(program):
    """The commands that change a file, over each container. What a command makes is what it makes where nothing fails."""
    five = File(1, [Row(b"TEXT", 5, None, 0, b"five")]).fork(lambda row: row.disk)
    for kind, data in containers():
        for what, words, files in (
            ("put", ["put", "f", "TEXT", "128", "-i", "in"], {"f": data, "in": b"Hello"}),
            ("put --backup", ["put", "--backup", "f", "TEXT", "128", "-i", "in"], {"f": data, "in": b"Hello"}),
            ("put -o of a new file", ["put", "from", "TEXT", "5", "-i", "in", "-o", "f"], {"from": data, "in": b"Hello"}),
            ("put -o over a file", ["put", "from", "TEXT", "5", "-i", "in", "-o", "f"], {"f": five, "from": data, "in": b"Hello"}),
            ("rm", ["rm", "f", "TEXT", "129"], {"f": data}),
            ("cp", ["cp", "from", "TEXT:5", "f"], {"f": data, "from": five}),
            ("convert over a file", ["convert", "--to", "binhex", "--lossy", "from", "f"], {"f": five, "from": data}),
        ):
            other = (five, made(program, words, {**files, "f": five})) if what == "put" else None
            yield Job(f"{what}, {kind}", words, files, made(program, words, files), "f~" if "backup" in what else None, other)


def made(program, words, files):
    """The bytes of the file `f` after a command."""
    with tempfile.TemporaryDirectory() as folder:
        for name, it in files.items():
            with open(os.path.join(folder, name), "wb") as file:
                file.write(it)
        subprocess.run([program, *words], cwd=folder, capture_output=True, check=True)
        with open(os.path.join(folder, "f"), "rb") as file:
            return file.read()


def main(program):
    with tempfile.TemporaryDirectory() as folder:
        same = [Job(f"put, {kind}", ["put", "f", "TEXT", "128", "-i", "in"], {"f": data, "in": b"Hi"}, data) for kind, data in containers()]
        fork = next(containers())[1]
        words, files = ["put", "from", "TEXT", "5", "-i", "in", "-o", "f"], {"from": fork, "in": b"Hello"}
        streams = [(Job("put -o into a pipe", words, files, made(program, words, files)), b"precious")]
        return told(Bench(program, folder), list(jobs_of(program)), same, streams)
