"""Others who may write where a program writes: folders of `unpack`, and an OUT that is now a pipe and now a link.
"""
import contextlib
import os
import subprocess

from checks.salvage import written
from hostile.bench import GAME, IS_ROOT, OTHER, OWNER, RACES, STRANGER, as_user, beside, pause, read, room, snapshot, write
from model.fork import Row

KINDS = [b"A%02d " % number for number in range(40)]
FOLDERS = [kind.decode().replace(" ", "_") for kind in KINDS]
MANY = written([(kind, [Row(kind, 128, None, 0, kind * 10)]) for kind in KINDS])


def is_safe(folder, before):
    return None if snapshot(folder) == before else "what another user's link leads to was written"


def victim_of(folder):
    """A folder with a file, which is to stay as it is."""
    os.mkdir(os.path.join(folder, "safe"))
    os.chmod(os.path.join(folder, "safe"), 0o755)
    write(b"a file of another's", folder, "safe", "keep")
    return os.path.join(folder, "safe")


def links_to(victim, out):
    """Once the first folder is there, links are planted for the later ones."""

    def step():
        if os.path.exists(os.path.join(out, FOLDERS[0])):
            for name in reversed(FOLDERS):
                os.symlink(victim, os.path.join(out, name))

    return step


def swaps_of(victim, out):
    """Each folder is renamed, and a link put in its place."""
    count = iter(range(10**9))

    def step():
        for name in os.listdir(out):
            path = os.path.join(out, name)
            if not os.path.islink(path):
                os.rename(path, os.path.join(out, f"aside{next(count)}"))
                os.symlink(victim, path)

    return step


def moves_of(victim, out):
    """DIR itself is renamed, and a link put in its place."""
    count = iter(range(10**9))

    def step():
        pause(0.004)
        os.rename(out, f"{out}{next(count)}")
        os.symlink(victim, out)

    return step


def unpacked_beside(bench):
    """Another user plants links in DIR, which everybody may write, while files are unpacked to it: none is written elsewhere."""
    for what, steps in (("links for folders of types", links_to), ("links in the place of folders", swaps_of), ("a link in the place of DIR", moves_of)):
        with room(0o777) as folder:
            victim, out = victim_of(folder), os.path.join(folder, "out")
            write(MANY, folder, "many", mode=0o644)
            before = snapshot(victim)
            faults = []
            with beside(steps(victim, out), OTHER):
                for number in range(RACES):
                    with contextlib.suppress(OSError):  # the other may be faster
                        if os.path.lexists(out):
                            os.rename(out, f"{out}-{number}")
                        os.mkdir(out)
                        os.chmod(out, 0o777)
                    took = bench.run(["unpack", "many", "out"], folder)
                    faults += [fault for fault in (took.ends_well(), is_safe(victim, before)) if fault]
                    before = snapshot(victim)
            yield f"unpack, {RACES} times beside one who plants {what}", faults[0] + f", {len(faults)} times" if faults else None


def planted_before(bench):
    """A link or a folder that is there for a type is refused, or DIR is, which isn't empty; nothing is written through it."""
    for what, plant in (("a link to a folder", os.symlink), ("a folder", lambda victim, path: os.mkdir(path)), ("a link to nothing", lambda victim, path: os.symlink("none", path))):
        with room() as folder:
            victim = victim_of(folder)
            write(GAME, folder, "Game.rsrc")
            os.mkdir(os.path.join(folder, "out"))
            plant(victim, os.path.join(folder, "out", "TEXT"))
            before = snapshot(folder)
            took = bench.run(["unpack", "Game.rsrc", "out"], folder)
            yield f"unpack into a folder with {what}", took.says(4, words=("out",)) or (None if snapshot(folder) == before else "something was written")


def folders_of_others(bench):
    """A DIR of another owner that others may write is refused; one's own isn't, nor one that only its owner may write."""
    if why := bench.knows_users():
        yield "a DIR of another user", why
        return
    for owner, mode, is_refused in ((OWNER, 0o777, True), (OWNER, 0o1777, True), (OWNER, 0o707, True), (OWNER, 0o755, False), (None, 0o777, False), (None, 0o755, False)):
        with room() as folder:
            write(GAME, folder, "Game.rsrc")
            out = os.path.join(folder, "out")
            os.mkdir(out)
            if owner is not None:
                os.chown(out, owner, owner)
            os.chmod(out, mode)
            took = bench.run(["unpack", "Game.rsrc", "out"], folder)
            there = os.listdir(out)
            fault = took.says(4, words=("out",)) or (f"it wrote {there}" if there else None) if is_refused else took.says(0) or (None if "resources.json" in there else f"it wrote {there}")
            yield f"unpack into a folder of {'another' if owner else 'our own'} with mode {mode:o}", fault


def swapped_outputs(bench):
    """OUT is now a pipe or a device and now a link to another user's file, whose folder isn't ours to write: no byte of that changes."""
    how = as_user(OWNER) if not bench.knows_users() else {}
    for what in ("a pipe", "a device"):
        with room() as folder, room(0o755) as safe:
            victim, other, out = os.path.join(safe, "victim"), os.path.join(folder, "other"), os.path.join(folder, "out")
            write(b"another user's bytes " * 100, victim, mode=0o666, owner=STRANGER if IS_ROOT else None)
            os.chmod(safe, 0o555)
            write(GAME, folder, "Game.rsrc", mode=0o644)
            if what == "a pipe":
                os.mkfifo(other)
                os.chmod(other, 0o666)
            else:
                os.symlink("/dev/null", other)
            if IS_ROOT:
                os.chown(other, OTHER, OTHER, follow_symlinks=False)
            pipe = os.open(other, os.O_RDWR | os.O_NONBLOCK)

            def step(victim=victim, other=other, out=out):
                for to in (None, victim):
                    new = out + "x"
                    if to is None:
                        os.link(other, new, follow_symlinks=False)
                    else:
                        os.symlink(to, new)
                    os.rename(new, out)
                    if os.path.lexists(new):
                        os.unlink(new)

            before = snapshot(safe)
            os.symlink(victim, out)
            faults = []
            with beside(step, OTHER):
                for number in range(RACES):
                    words = [["get", "Game.rsrc", "snd ", "1", "-o", "out"], ["put", "Game.rsrc", "TEXT", "5", "-i", "/dev/null", "-o", "out"]][number % 2]
                    took = bench.run(words, folder, **how)
                    faults += [fault for fault in (took.ends_well(), is_safe(safe, before)) if fault]
                    before = snapshot(safe)
            os.close(pipe)
            os.chmod(safe, 0o755)
            yield f"-o, {RACES} times over {what} that is swapped for a link", f"{faults[0]}, {len(faults)} times" if faults else None


def outputs(bench):
    """What is no plain file is written to as it is."""
    with room() as folder:
        write(GAME, folder, "Game.rsrc")
        os.mkfifo(os.path.join(folder, "pipe"))
        with subprocess.Popen(["cat", "pipe"], cwd=folder, stdout=subprocess.PIPE) as reader:
            took = bench.run(["get", "Game.rsrc", "TEXT", "128", "-o", "pipe"], folder)
            got = reader.communicate(timeout=20)[0] if took.status == 0 else reader.kill()
        yield "-o of a pipe", took.says(0) or (None if got == b"Hi" else f"it has {got!r}")
        took = bench.run(["get", "Game.rsrc", "TEXT", "128", "-o", "/dev/null"], folder)
        yield "-o of a device", took.says(0)
        os.mkdir(os.path.join(folder, "sub"))
        took = bench.run(["get", "Game.rsrc", "TEXT", "128", "-o", "sub"], folder)
        yield "-o of a folder", took.says(4, words=("sub",))
        yield "and the file is as it was", None if read(folder, "Game.rsrc") == GAME else "it isn't"


def rows(bench):
    for some in (planted_before, folders_of_others, unpacked_beside, outputs, swapped_outputs):
        yield from some(bench)
