"""What lies beside a file: notes with the name that a journal would have, files that a program which was ended has left, a lock, and a limit.
"""
import fcntl
import os
import re
import resource
import subprocess

from hostile.bench import GAME, IS_ROOT, OTHER, OTHER_GAME, OWNER, RACES, Skipped, as_user, beside, changed_in, left_in, read, room, snapshot, write
from model.fork import read_fork

FILE, PLANTED = "Game.rsrc", ".Game.rsrc.journal"
# what macheap gets as its journal
JOURNAL = "Game.notes"
# the commands that read, each typed in a folder with Game.rsrc, Other.rsrc and in
READING = [
    ["ls", FILE],
    ["ls", "--json", FILE],
    ["ls", "--types", FILE],
    ["get", FILE, "TEXT", "128"],
    ["info", FILE],
    ["check", FILE],
    ["salvage", FILE],
    ["show", FILE],
    ["derez", FILE],
    ["diff", FILE, "Other.rsrc"],
    ["unpack", FILE, "OUT"],
    ["get", FILE, "TEXT", "128", "-o", "OUT"],
    ["put", "-n", FILE, "TEXT", "5", "-i", "in"],
    ["rm", "-n", FILE, "TEXT", "128"],
    ["set", "-n", FILE, "TEXT", "128", "--id", "7"],
    ["cp", "-n", "Other.rsrc", FILE],
]
CHANGING = [["put", FILE, "TEXT", "5", "-i", "in"], ["rm", FILE, "TEXT", "128"], ["set", FILE, "TEXT", "128", "--id", "7"], ["cp", "Other.rsrc", FILE]]
PUT = ["put", FILE, "TEXT", "128", "-i", "in"]
LEFT = re.compile(r"\.resfork-\d+\.new")


def ready(folder):
    os.chmod(folder, 0o777)
    write(GAME, folder, FILE, mode=0o666)
    write(OTHER_GAME, folder, "Other.rsrc", mode=0o644)
    write(b"Hello", folder, "in", mode=0o644)


# a planted journal


def plants():
    """What is planted beside the file, each with a word for it."""
    yield "an open gate and no bytes", b"\1\0\0\0\0"
    yield "an open gate and a fork", b"\1" + len(OTHER_GAME).to_bytes(4, "big") + OTHER_GAME
    yield "notes", b"notes of my own\n"
    yield "nothing", b""


def planted(folder, data):
    """Plants it: bytes, or a link to a file elsewhere."""
    path = os.path.join(folder, PLANTED)
    if isinstance(data, bytes):
        write(data, path, mode=0o644)
    else:
        os.symlink(data, path)


def answer_of(bench, words, data, is_missing=False):
    """What a command does beside a planted file, and what it makes. The fault is that something else has changed."""
    with room() as folder, room() as outside:
        ready(folder)
        if is_missing:
            os.unlink(os.path.join(folder, FILE))
        if data is not None:
            planted(folder, data)
        before = snapshot(folder)
        took = bench.run([os.path.join(outside, "out") if word == "OUT" else word for word in words], folder)
        after = snapshot(folder)
        made = [(name, it[-1]) for name, it in snapshot(outside).items()]
        changed = set(changed_in(before, after))
        new = after.get(FILE)
        return (took.status, took.output, took.told.replace(outside, ""), made, new and new[-1]), changed


def journals(bench):
    """A command that reads writes nothing, one that changes a file changes that alone, and both do what they do without what is planted."""
    for words in READING + CHANGING + [["put", "--create", FILE, "TEXT", "5", "-i", "in"]]:
        is_missing = "--create" in words
        may_change = {FILE} if words in CHANGING or is_missing else set()
        wanted, _ = answer_of(bench, words, None, is_missing)
        with room() as elsewhere:
            canary = write(b"\1\0\0\0\0", elsewhere, "canary")
            for what, data in [*plants(), ("a link", canary)]:
                before = snapshot(elsewhere)
                got, changed = answer_of(bench, words, data, is_missing)
                differs = [(here, there) for here, there in zip(got, wanted) if here != there]
                fault = f"it does {differs[0][0]!r:.200} and not {differs[0][1]!r:.200}" if differs else None
                fault = f"it changed {changed}" if changed - may_change else fault
                fault = fault or (None if snapshot(elsewhere) == before else "it changed a file elsewhere")
                yield f"{' '.join(words)} beside {what}", fault if wanted[0] <= 1 else f"without it: {wanted}"


def journal_race(bench):
    """Another user puts a link to a file of ours in the place of his own, while a journal of ours lies beside it."""
    with room() as folder, room(0o755) as safe:
        ready(folder)
        victim = write(b"a file of ours", safe, "victim", mode=0o644)
        before = snapshot(safe)
        path, new = os.path.join(folder, FILE), os.path.join(folder, "new")

        def step():
            write(GAME, new)
            os.rename(new, path)
            os.symlink(victim, new)
            os.rename(new, path)

        faults, reached = [], 0
        with beside(step, OTHER):
            for _ in range(RACES):
                write(b"\1\0\0\0\0", folder, PLANTED)
                faults += [fault for fault in [bench.run(["ls", FILE], folder).ends_well()] if fault]
                if snapshot(safe) != before:
                    reached += 1
                    write(b"a file of ours", safe, "victim")
                    before = snapshot(safe)
        fault = f"the file of ours was changed {reached} times" if reached else faults[0] if faults else None
        yield f"{RACES} times ls, beside a journal, and one who plants a link", fault


def mounted(bench):
    """A file on which another is mounted can't be renamed over: it is refused, nothing has changed, and the message names -o."""
    with room() as folder:
        ready(folder)
        write(GAME, folder, "mounted")
        path = os.path.join(folder, FILE)
        if not IS_ROOT or subprocess.run(["mount", "--bind", os.path.join(folder, "mounted"), path], capture_output=True, check=False).returncode:
            yield "a mounted file", Skipped("nothing can be mounted here")
            return
        try:
            before = snapshot(folder)
            took = bench.run(PUT, folder)
            fault = took.says(4, words=("-o", FILE)) or (None if snapshot(folder) == before else f"it changed {changed_in(before, snapshot(folder))}")
        finally:
            subprocess.run(["umount", path], check=False)
        yield "a mounted file", fault


# what a program that was ended has left


def ended(bench, folder, **how):
    """Ends a change of Game.rsrc in this folder where its new file is whole. The result is the names of what is left since."""
    before = set(left_in(folder))
    with room() as other:
        ready(other)
        _, calls = bench.shimmed(PUT, other)
    turn = calls.find("n") + 1
    bench.shimmed(PUT, folder, settings={"REPLACE_END": turn}, **how)
    return sorted(set(left_in(folder)) - before)


def of_another(folder):
    """The same, where the file is another user's."""
    ready(folder)
    os.chown(os.path.join(folder, FILE), OWNER, OWNER)


def leftovers(bench):
    """A program that was ended leaves one new file at most, and the next change of the same file by the same user removes that."""
    lines = [("put", PUT, ready), ("put --backup", [*PUT, "--backup"], ready), ("get -o", ["get", "Other.rsrc", "PICT", "200", "-o", FILE], ready)]
    for says, words, make in lines + ([("put over another's file", PUT, of_another)] if IS_ROOT else []):
        for what, took, folder in bench.turns(words, make):
            left = left_in(folder)
            fault = None if took.status == -9 else str(took)
            fault = fault or (None if len(left) <= 1 and all(map(LEFT.fullmatch, left)) else f"it left {left}")
            # where the file is there already, it is another change of it
            again = bench.run(words if read(folder, FILE) == GAME else ["put", FILE, "TEXT", "1", "--create", "-i", "in"], folder)
            gone = left_in(folder)
            yield f"{says}, {what}, and then again", fault or again.ends_well() or (f"after it {gone} is there" if gone else None)
    with room() as folder:
        ready(folder)
        left = [name for _ in range(3) for name in ended(bench, folder)]
        again = bench.run(PUT, folder)
        gone = left_in(folder)
        yield "ended three times, and then again", again.says(0) or (None if left and not gone else f"it left {left}, and {gone} are there")


def held_leftovers(bench):
    """What another program holds stays, and what another user has left."""
    with room() as folder:
        ready(folder)
        left = ended(bench, folder)
        if not left:
            yield "what another program holds", "nothing is left by a program that is ended"
            return
        with open(os.path.join(folder, left[0]), "rb") as held:
            fcntl.flock(held, fcntl.LOCK_EX)
            took = bench.run(PUT, folder)
            there = left_in(folder)
        yield "what another program holds stays", took.says(0) or (None if there == left else f"{there} is there, and {left} was held")
        took = bench.run(["rm", FILE, "TEXT", "129"], folder)
        yield "and is removed once it is let go", took.says(0) or (None if not left_in(folder) else f"{left_in(folder)} is there")
    if why := bench.knows_users():
        yield "what another user has left", why
        return
    with room() as folder:
        ready(folder)
        left = ended(bench, folder, **as_user(OTHER))
        before = {name: it for name, it in snapshot(folder).items() if name in left}
        for what, how in (("a user", as_user(OWNER)), ("root", {})):
            os.chmod(os.path.join(folder, FILE), 0o666)
            os.chmod(folder, 0o777)
            took = bench.run(PUT if how else ["rm", FILE, "TEXT", "129"], folder, **how)
            after = {name: it for name, it in snapshot(folder).items() if name.startswith(".resfork-")}
            yield f"what another user has left stays, for {what}", took.says(0) or (None if left and after == before else f"{list(after)} is there, and {left} was left")


def taken_names(bench):
    """Names that a new file would have are taken by what is no file of ours, and a link is in the place of the backup: all of it stays, but the link."""
    with room() as folder, room(0o755) as safe:
        ready(folder)
        victim = write(b"a file of ours", safe, "victim", mode=0o644)
        names = [f".resfork-{number}.new" for number in range(4)]
        os.symlink(victim, os.path.join(folder, names[0]))
        os.mkfifo(os.path.join(folder, names[1]))
        os.mkdir(os.path.join(folder, names[2]))
        os.symlink("none", os.path.join(folder, names[3]))
        os.symlink(victim, os.path.join(folder, FILE + "~"))
        before, kept = snapshot(folder), snapshot(safe)
        took = bench.run([*PUT, "--backup"], folder)
        changed = set(changed_in(before, snapshot(folder))) - {FILE, FILE + "~"}
        fault = took.says(0) or (f"it changed {changed}" if changed or snapshot(safe) != kept else None)
        yield "names that are taken", fault or (None if not os.path.islink(os.path.join(folder, FILE + "~")) and read(folder, FILE + "~") == GAME else "the backup isn't the old file")


def at_once(bench):
    """Programs that change files of one folder, or one file, at the same time don't remove each other's new files."""
    for what, names, statuses in (("two files of one folder", (FILE, "Other.rsrc"), {0}), ("one file", (FILE, FILE), {0, 4})):
        with room() as folder:
            ready(folder)
            faults = []
            for number in range(RACES // 2):
                lines = [["put", name, "TEXT", str(1000 + 2 * number + which), "-i", "in"] for which, name in enumerate(names)]
                running = [subprocess.Popen([bench.resfork, *words], cwd=folder, stdout=subprocess.DEVNULL, stderr=subprocess.PIPE) for words in lines]
                ends = [(it.communicate(), it.returncode) for it in running]
                ids = [{row.ident for row in read_fork(read(folder, name)) if row.kind == b"TEXT"} for name in names]
                for words, ((_, told), status), there in zip(lines, ends, ids):
                    if status not in statuses or (status == 0) != (int(words[3]) in there):
                        faults.append(f"{' '.join(words)}: status {status}, {told!r}")
            left = left_in(folder)
            yield f"{RACES} changes of {what}, two at a time", f"{len(faults)} of them: {faults[0]}" if faults else f"{left} is left" if left else None


# limits and locks


def limited(bench):
    """Where files may have few bytes, a message ends the program, and no signal."""

    def limit():
        resource.setrlimit(resource.RLIMIT_FSIZE, (64, 64))

    lines = [
        ("unpack", ["unpack", FILE, "out"], False),
        ("the standard output, of ls", ["ls", FILE, FILE, FILE], True),
        ("the standard output, of derez", ["derez", FILE], True),
        ("the standard output, of get -o -", ["put", FILE, "TEXT", "5", "-i", "in", "-o", "-"], True),
        ("-o, of a new file", ["put", FILE, "TEXT", "5", "-i", "in", "-o", "new"], False),
        ("-o, over a file", ["put", FILE, "TEXT", "5", "-i", "in", "-o", "Other.rsrc"], False),
        ("put", PUT, False),
        ("salvage -o", ["salvage", FILE, "-o", "new"], False),
        ("convert", ["convert", "--to", "macbinary", FILE, "new"], False),
    ]
    for what, words, is_output in lines:
        with room() as folder:
            ready(folder)
            before = snapshot(folder)
            # the error output is a pipe, which has no limit
            with open(os.path.join(folder, "printed"), "wb") as printed:
                took = bench.run(words, folder, preexec_fn=limit, stdout=printed if is_output else subprocess.PIPE)
            after = {name: it for name, it in snapshot(folder).items() if name != "printed" and not name.startswith("out")}
            fault = None if took.status == 4 and took.told.strip() else str(took)
            yield f"files of 64 bytes at most: {what}", fault or (None if after == before else f"it changed {changed_in(before, after)}")


def holding(path):
    held = open(path, "rb")  # pylint: disable=consider-using-with
    fcntl.flock(held, fcntl.LOCK_EX)
    return held


def locks(bench):
    """macheap takes the lock that resfork takes, for the file of a fork and for its journal."""
    for what, name in (("the fork", FILE), ("the journal", JOURNAL)):
        with room() as folder:
            ready(folder)
            write(b"", folder, JOURNAL)
            before = snapshot(folder)
            with holding(os.path.join(folder, name)):
                took = bench.run(["--fork", FILE, "--journal", JOURNAL], folder, given=b"h = NewHandle 4\n", program=bench.macheap)
            fault = took.says(1, words=(name,)) or (None if not took.output and snapshot(folder) == before else f"{took}, it changed {changed_in(before, snapshot(folder))}")
            yield f"macheap, where another program holds {what}", fault
            took = bench.run(["--fork", FILE, "--journal", JOURNAL], folder, given=b"h = NewHandle 4\n", program=bench.macheap)
            yield f"macheap, once {what} is let go", took.says(0)
    with room() as folder:
        ready(folder)
        write(b"", folder, JOURNAL)
        before = snapshot(folder)
        # more than a pipe takes, so it waits with its files open
        script = b"h = NewHandle 4\nDisposeHandle h\n" * 20000
        with subprocess.Popen([bench.macheap, "--fork", FILE, "--journal", JOURNAL], cwd=folder, stdin=subprocess.PIPE, stdout=subprocess.PIPE) as running:
            try:
                os.set_blocking(running.stdin.fileno(), True)
                running.stdin.write(script)
                running.stdin.close()
                first = os.read(running.stdout.fileno(), 100)
                took = bench.run(PUT, folder)
            finally:
                running.kill()
        fault = took.says(4, words=(FILE, "at work")) or (None if first and snapshot(folder) == before else f"it changed {changed_in(before, snapshot(folder))}")
        yield "resfork, on a file that macheap has open", fault
        yield "resfork, once macheap is gone", bench.run(PUT, folder).says(0)


def rows(bench):
    for some in (journals, journal_race, mounted, leftovers, held_leftovers, taken_names, at_once, limited, locks):
        yield from some(bench)
