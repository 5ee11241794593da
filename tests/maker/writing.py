#!/usr/bin/env python3
"""How the maker writes: as a whole or not at all, through links, with the right mode and owner, to standard output,
and never over its texts or what is write-protected.

    writing.py WORK      WORK is an empty folder

It ends with a message at the first difference. The maker is run in a process of its own; where a write is to fail or
the maker to end in the midst of it, that process first changes what the maker calls.
"""

import os
import signal
import subprocess
import sys
from pathlib import Path

MAKER = Path(__file__).resolve().parents[2] / "examples/maker.py"
OLD = b"what was there before"
SHEET = bytes.fromhex("01040001000100 02010041 040000")

# What is done to the maker before it runs: a call that fails, or that ends the process as a crash does.
CHANGED = """
import errno, os, runpy, sys
def fail(*given):
    raise OSError(errno.EIO, os.strerror(errno.EIO))
def crash(*given):
    os._exit(9)
class Order:
    seen = []
def noted(name):
    real = getattr(os, name)
    def call(*given):
        Order.seen.append(name)
        return real(*given)
    return call
{change}
sys.argv = ["maker.py", *sys.argv[2:]]
runpy.run_path({maker!r}, run_name="__main__")
"""


def expect(same, what):
    if not same:
        sys.exit(f"tests/maker/writing.py: {what}")


# For root permission bits hold only if it has given up what it may do beyond them.
PLAINLY = ["setpriv", "--inh-caps=-all", "--bounding-set=-all"] if os.geteuid() == 0 else []


def permissions_hold():
    """Whether this machine lets root give that up."""
    return not PLAINLY or subprocess.run([*PLAINLY, "true"], capture_output=True, check=False).returncode == 0



def run(*words, change=None, limit=None, mask=None, plainly=False):
    """Runs the maker, and gives its status and what it said. An interrupt counts, whatever it does here."""

    def prepare():
        signal.signal(signal.SIGINT, signal.SIG_DFL)
        if limit is not None:
            import resource

            resource.setrlimit(resource.RLIMIT_FSIZE, (limit, limit))
        if mask is not None:
            os.umask(mask)

    front = [str(MAKER)] if change is None else ["-c", CHANGED.format(change=change, maker=str(MAKER)), "maker"]
    done = subprocess.run(
        [*(PLAINLY if plainly else []), sys.executable, *front, *map(str, words)],
        capture_output=True,
        text=True,
        check=False,
        preexec_fn=prepare,
    )
    return done.returncode, done.stdout + done.stderr


def mode(path):
    return path.stat().st_mode & 0o7777


def check_good(folder, text):
    """New and replaced files, their modes, links, and what is no file."""
    out = folder / "out.bin"
    expect(run("sheet", text, out, mask=0o027) == (0, "") and out.read_bytes() == SHEET, "a new file")
    expect(mode(out) == 0o640, "a new file has the mode that the mask leaves")
    out.write_bytes(OLD)
    out.chmod(0o604)
    before = out.stat().st_ino
    expect(run("sheet", text, out, mask=0o077) == (0, "") and out.read_bytes() == SHEET, "a replaced file")
    expect(mode(out) == 0o604, "a replaced file keeps its mode")
    expect(out.stat().st_ino != before, "a file is replaced, not written into")
    link = folder / "links/link"
    link.parent.mkdir()
    link.symlink_to("../linked/real.bin")
    (folder / "linked").mkdir()
    for content in ("new", "old"):
        expect(run("sheet", text, link) == (0, ""), f"through a link, {content}")
        expect(link.is_symlink() and (folder / "linked/real.bin").read_bytes() == SHEET, f"the link, {content}")
    expect(list(link.parent.iterdir()) == [link], "beside a link nothing is left")
    done = subprocess.run([sys.executable, MAKER, "sheet", text, "/dev/stdout"], stdout=subprocess.PIPE, check=True)
    expect(done.stdout == SHEET, "a pipe is written to")
    pipe = folder / "pipe"
    os.mkfifo(pipe)
    reader = os.open(pipe, os.O_RDONLY | os.O_NONBLOCK)
    expect(run("sheet", text, pipe) == (0, "") and os.read(reader, 100) == SHEET, "a named pipe is written to")
    expect(pipe.is_fifo(), "a named pipe stays one")
    os.close(reader)
    pipe.unlink()


def check_bad(folder, text):
    """A write that fails, in several ways, leaves the old file and no other."""
    out = folder / "out.bin"
    for made in (True, False):
        out.write_bytes(OLD) if made else out.unlink()
        files = sorted(folder.iterdir())
        for failure, cause in (
            ({"limit": 10}, "File too large"),
            ({"change": "os.fsync = fail"}, "Input/output error"),
            ({"change": "os.fchmod = fail"}, "Input/output error"),
            ({"change": "os.replace = fail"}, "Input/output error"),
        ):
            expect(run("sheet", text, out, **failure) == (1, f"{out}: {cause}\n"), f"{failure}: what is said")
            expect(sorted(folder.iterdir()) == files, f"{failure}: files are left or gone")
            expect(not made or out.read_bytes() == OLD, f"{failure}: the old file has changed")
    expect(run("sheet", text, folder) == (1, f"{folder}: Is a directory\n"), "a folder")
    absent = folder / "absent/out.bin"
    said = f"{absent}: no file can be made in the folder {absent.parent}: No such file or directory\n"
    expect(run("sheet", text, absent) == (1, said), "an absent folder")
    loop = folder / "loop"
    loop.symlink_to("loop")
    said = f"{loop}: Too many levels of symbolic links\n"
    expect(run("sheet", text, loop) == (1, said) and loop.is_symlink(), "a link to itself")


def check_barred(text, shelf, out):
    """A file that is write-protected stays, and so does a folder."""
    out.chmod(0o444)
    said = f"{out}: it is write-protected\n"
    expect(run("sheet", text, out, plainly=True) == (1, said), "a write-protected file: what is said")
    expect(out.read_bytes() == OLD and mode(out) == 0o444, "a write-protected file has changed")
    out.chmod(0o600)
    shelf.chmod(0o555)
    for path in (out, shelf / "new.bin"):
        said = f"{path}: no file can be made in the folder {shelf}: Permission denied\n"
        expect(run("sheet", text, path, plainly=True) == (1, said), "a write-protected folder: what is said")
    shelf.chmod(0o755)
    expect(out.read_bytes() == OLD and list(shelf.iterdir()) == [out], "a write-protected folder has changed")


def check_protected(folder, text):
    """What is write-protected stays; what may be kept of a file is kept."""
    shelf = folder / "shelf"
    shelf.mkdir()
    out = shelf / "out.bin"
    out.write_bytes(OLD)
    if permissions_hold():
        check_barred(text, shelf, out)
    out.chmod(0o6750)
    expect(run("sheet", text, out) == (0, "") and mode(out) == 0o750, "bits beyond permissions are not kept")
    noted = "import atexit; taken = []\n"
    noted += "def fchown(handle, *owner):\n    taken.append(owner)\n    {end}\n"
    noted += "os.fchown = fchown\natexit.register(lambda: print(taken))"
    was = out.stat()
    said = f"[(-1, {was.st_gid}), ({was.st_uid}, -1)]\n"
    for end in ("pass", "raise PermissionError(errno.EPERM, 'no')"):
        expect(run("sheet", text, out, change=noted.replace("{end}", end)) == (0, said), f"the owner: {end}")
        expect(out.read_bytes() == SHEET and mode(out) == 0o750, f"the file of an owner: {end}")
    if os.geteuid() == 0:
        os.chown(out, 12, 34)
        expect(run("sheet", text, out) == (0, ""), "a file of another")
        expect((out.stat().st_uid, out.stat().st_gid, mode(out)) == (12, 34, 0o750), "owner and group are kept")


def shell(command, text):
    """Runs a shell's command, in which $maker is the maker, and gives its status and what it said as errors."""
    names = dict(os.environ, maker=str(MAKER), text=str(text))
    done = subprocess.run(["bash", "-c", command], cwd=text.parent, env=names, capture_output=True, text=True, check=False)
    return done.returncode, done.stderr


def check_output(folder, text):
    """Standard output is written to, also where it is a file; where it cannot be, that is said."""
    out = folder / "standard.bin"
    for words, content in (
        ("printf a >standard.bin; $maker sheet $text /dev/stdout >>standard.bin", b"a" + SHEET),
        ("{ printf a; $maker sheet $text /dev/stdout; printf b; } >standard.bin", b"a" + SHEET + b"b"),
        ("{ printf a; $maker sheet $text /dev/fd/1; printf b; } >standard.bin", b"a" + SHEET + b"b"),
        ("$maker sheet $text standard.bin >standard.bin", SHEET),
        ("$maker sheet $text standard.bin >&-", SHEET),
    ):
        expect(shell(words, text) == (0, "") and out.read_bytes() == content, words)
    said = "this file is the text sheet.txt, which is read; write to another\n"
    words = "$maker sheet sheet.txt /dev/stdout >>sheet.txt"
    expect(shell(words, text) == (1, f"/dev/stdout: {said}"), words)
    front = "maker.py: standard output was not written: "
    for words, status, said in (
        ("$maker --help >/dev/full", 1, front + "No space left on device\n"),
        ("$maker --help >&-", 1, front + "it is closed\n"),
        ("$maker sheet $text /dev/full", 1, "/dev/full: No space left on device\n"),
        ("$maker sheet $text /dev/stdout >/dev/full", 1, "/dev/stdout: No space left on device\n"),
    ):
        expect(shell(words, text) == (status, said), words)


def check_ends(folder, text):
    """A reader that went away, and an interrupt, in a process that is told of them at a known place."""
    for words, status, said in ((["--help"], 1, b""), (["sheet", text, "/dev/stdout"], 1, b"/dev/stdout: Broken pipe\n")):
        reader, writer = os.pipe()
        os.close(reader)
        done = subprocess.run([sys.executable, MAKER, *words], stdout=writer, stderr=subprocess.PIPE, check=False)
        os.close(writer)
        expect((done.returncode, done.stderr) == (status, said), f"{words}: the reader went away")
    out = folder / "out.bin"
    out.write_bytes(OLD)
    for call in ("stat", "fsync", "replace"):
        change = f"import signal\nos.{call} = lambda *given: signal.raise_signal(signal.SIGINT)"
        expect(run("sheet", text, out, change=change) == (130, ""), f"an interrupt in {call}")
        expect(out.read_bytes() == OLD and not list(folder.glob(".maker-*")), f"files after an interrupt in {call}")


def check_crash(folder, text):
    """The old file stands until the new one is on the disk."""
    out = folder / "crash.bin"
    out.write_bytes(OLD)
    for call in ("fchmod", "fsync", "replace"):
        expect(run("sheet", text, out, change=f"os.{call} = crash") == (9, ""), f"a crash in {call}")
        expect(out.read_bytes() == OLD, f"a crash in {call} leaves the old file")
    for left in folder.glob(".maker-*"):
        left.unlink()
    order = "import atexit; os.fsync, os.replace = noted('fsync'), noted('replace')\n"
    order += "atexit.register(lambda: print(*Order.seen))"
    expect(run("sheet", text, out, change=order) == (0, "fsync replace\n"), "first to the disk, then in its place")
    expect(out.read_bytes() == SHEET, "the new file")


def check_sources(folder, text):
    """The texts are not written over, by whatever name."""
    day = folder / "day.txt"
    day.write_text("ask A\n")
    for source in (text, day):
        soft, hard = folder / f"soft-{source.name}", folder / f"hard-{source.name}"
        soft.symlink_to(source.name)
        os.link(source, hard)
        before = source.read_bytes()
        for out in (source, folder / "linked/.." / source.name, soft, hard):
            said = f"{out}: this file is the text {source}, which is read; write to another\n"
            expect(run("day", text, day, out) == (1, said), f"{out} is not written")
            expect(source.read_bytes() == before and soft.is_symlink(), f"{out} stays")
    said = f"{text}: this file is the text {text}, which is read; write to another\n"
    expect(run("sheet", text, text) == (1, said), "a sheet over its text")
    expect(run("sheet", text, day) == (0, "") and day.read_bytes() == SHEET, "a text that is not read is written over")


def main(folder):
    text = folder / "sheet.txt"
    text.write_text("entry A\n")
    for check in (check_good, check_bad, check_protected, check_output, check_ends, check_crash, check_sources):
        check(folder, text)
    expect(not list(folder.rglob(".maker-*")), "a file is left")


if __name__ == "__main__":
    main(Path(sys.argv[1]).resolve())
