"""Who owns a new file, and who may read, write and run it: nobody gets more than the old one gave.

Owner and group are those of the old file where the system allows it. The nine bits of the mode stay; where the group can't be kept, the group and all
others get what both had, since those of the old group are others now. The special bits stay where owner and group do. The same is true of `FILE~`.
"""
import os

from hostile.bench import GAME, IS_ROOT, OTHER, OTHER_GAME, OWNER, STRANGER, as_user, left_in, read, room, snapshot, write

SPECIAL = [0o4755, 0o2755, 0o6755, 0o1644, 0o4711, 0o2070, 0o7777]
SAMPLED = range(0, 0o1000, 7)
PUT = ["put", "f", "TEXT", "128", "-i", "in"]
NEW = b"Hello"


def allowed(mode, owner_stays, group_stays):
    """The mode of a new file in the place of one with this mode."""
    if owner_stays and group_stays:
        return mode
    if group_stays:
        return mode & 0o777
    both = mode >> 3 & mode & 7
    return mode & 0o700 | both << 3 | both


def ready(folder, mode, owner, group):
    write(GAME, folder, "f", mode=mode, owner=owner, group=group)
    write(GAME, folder, "from", mode=0o644)
    write(NEW, folder, "in", mode=0o644)


def fault_of(folder, name, mode, was, owner_may_stay, groups):
    """What is wrong with who owns a new file. It takes the place of one with this mode, owner and group; it may have these groups."""
    now = os.lstat(os.path.join(folder, name))
    owner, group = (was[0] if owner_may_stay else None), (was[1] if was[1] in groups else None)
    if owner is not None and now.st_uid != owner or group is not None and now.st_gid != group:
        return f"{name} of {was} is of {now.st_uid}, {now.st_gid} now, and its mode was {mode:o} and is {now.st_mode & 0o7777:o}"
    wanted = allowed(mode, now.st_uid == was[0], now.st_gid == was[1])
    return None if now.st_mode & 0o7777 == wanted else f"{name} of {was} with mode {mode:o} is of {now.st_uid}, {now.st_gid} with {now.st_mode & 0o7777:o} and not {wanted:o}"


def replaced(bench, words, mode, was, user, groups):
    """Runs a command over a file with this mode, owner and group. Where the user may not write it, it may be refused, and then nothing changes."""
    with room() as folder:
        ready(folder, mode, *was)
        before = snapshot(folder)
        took = bench.run(words, folder, **({} if user is None else as_user(user, *groups)))
        bits = mode >> 6 if user in (None, was[0]) else mode >> 3 if was[1] in groups else mode
        if user is not None and bits & 6 != 6 and took.status == 4 and took.told:
            return None if snapshot(folder) == before else "it was refused, and something changed"
        if took.status != 0 or left_in(folder):
            return f"{took}, {left_in(folder)} left"
        names = ["f", "f~"] if "--backup" in words else ["f"]
        stays = user in (None, was[0])
        known = {was[1]} if user is None else {user, *groups}
        return next((fault for name in names if (fault := fault_of(folder, name, mode, was, stays, known))), None)


def modes(bench):
    """Each mode that is sampled, over files of others, by root and by users of whom one may keep the group and one may not."""
    commands = [["get", "from", "TEXT", "129", "-o", "f"], [*PUT, "--backup"]]
    for what, was, user, groups in (
        ("root over another's file", (OWNER, OWNER), None, ()),
        ("root over a file of two", (OWNER, STRANGER), None, ()),
        ("the owner", (OWNER, OWNER), OWNER, ()),
        ("the owner, whose group isn't the file's", (OWNER, STRANGER), OWNER, ()),
        ("another user", (OWNER, OWNER), OTHER, ()),
        ("another user of the group", (OWNER, STRANGER), OTHER, (STRANGER,)),
    ):
        for words in commands:
            faults = [fault for mode in [*SPECIAL, *SAMPLED] if (fault := replaced(bench, words, mode, was, user, groups))]
            yield f"{' '.join(words[:1] + words[-2:])} by {what}, {len(SPECIAL) + len(SAMPLED)} modes", f"{len(faults)} of them: {faults[0]}" if faults else None


def root_shell(bench):
    """At no moment is there a file of root's that another user may run as root, or one that others may read where the old one is private."""
    for mode in (0o4755, 0o2755, 0o6755, 0o640):
        words = ["get", "from", "TEXT", "129", "-o", "f"]
        for what, took, folder in bench.turns(words, lambda folder, mode=mode: ready(folder, mode, OWNER, OWNER)):
            fault = None if took.status == -9 else str(took)
            for name in os.listdir(folder):
                now = os.lstat(os.path.join(folder, name))
                is_ours = (now.st_uid, now.st_gid) == (OWNER, OWNER)
                most = mode if is_ours else allowed(mode, False, False)
                if name not in ("from", "in") and now.st_mode & 0o7077 & ~most:
                    fault = f"{name} of {now.st_uid}, {now.st_gid} has the mode {now.st_mode & 0o7777:o}"
            yield f"get -o over a file with mode {mode:o}, {what}", fault


def said(bench):
    """A file with several names, or one whose owner will change, is said on the error output; others aren't."""
    lines = [("put", PUT), ("rm", ["rm", "f", "TEXT", "129"]), ("get -o", ["get", "from", "TEXT", "128", "-o", "f"]), ("cp", ["cp", "other", "f"])]
    for what, words in lines:
        for names in ([], ["second"], ["second", "third"]):
            with room() as folder:
                ready(folder, 0o644, *((OWNER, OWNER) if IS_ROOT else (None, None)))
                write(OTHER_GAME, folder, "other")
                for name in names:
                    os.link(os.path.join(folder, "f"), os.path.join(folder, name))
                took = bench.run(words, folder)
                told = took.told.splitlines()
                fault = took.says(0) or (None if read(folder, "f") != GAME else "it isn't changed")
                fault = fault or next((f"{name} isn't as it was" for name in names if read(folder, name) != GAME), None)
                if not fault and bool(told) != bool(names) or told and not told[0].startswith("f"):
                    fault = f"it says {took.told!r}"
                yield f"{what} over a file with {1 + len(names)} names", fault
    yield from said_before(bench)
    if not (why := bench.knows_users()):
        with room() as folder:
            ready(folder, 0o666, OWNER, OWNER)
            took = bench.run(PUT, folder, **as_user(OTHER))
            yield "a file whose owner changes", took.says(0) or (None if took.told.startswith("f") else "it doesn't say so")
    else:
        yield "a file whose owner changes", why


def said_before(bench):
    """The line comes before the file is replaced: it is there where the program is ended at the renaming."""

    def make(folder):
        ready(folder, 0o644, None, None)
        os.link(os.path.join(folder, "f"), os.path.join(folder, "second"))

    ends = [took.told for what, took, _ in bench.turns(PUT, make) if what.endswith(" n")]
    yield "the line comes before the renaming", None if ends and all(it.startswith("f") for it in ends) else f"at the renaming it has said {ends}"


def backup_of_another(bench):
    """A backup that is there already, of another user, doesn't decide who owns the new one."""
    with room() as folder:
        ready(folder, 0o640, OWNER, OWNER)
        write(b"notes", folder, "f~", mode=0o4777, owner=STRANGER)
        took = bench.run([*PUT, "--backup"], folder)
        yield "a backup over another user's file", took.says(0) or fault_of(folder, "f~", 0o640, (OWNER, OWNER), True, {OWNER}) or (None if read(folder, "f~") == GAME else "it has other bytes")


def rows(bench):
    yield from said(bench)
    why = bench.knows_users()
    if why:
        yield "owners and modes", why
        return
    for some in (modes, root_shell, backup_of_another):
        yield from some(bench)
