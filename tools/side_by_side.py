#!/usr/bin/env python3
"""Proves the crates below the program side by side, for the script `spark`.

    python3 tools/side_by_side.py LOG               adds what rt says to LOG; ends with 1 where a crate isn't proved

A crate begins when those below it are proved; of those that can begin, the one with the longest way to the
program goes first. At most four are proved at a time, and no more than there are processors and memory for.

`rt lib` holds the folders of the crate and of all below it, so in one checkout it proves one crate at a time.
Here each of those at a time has a place of its own, which is removed at the end: the texts of all crates as hard
links, and the proved libraries that it needs. What a crate's proof leaves in its folder `out` comes back to the
checkout. The crates' folders here are held meanwhile, so another rt, and another first run, wait.
"""
import fcntl
import os
import pathlib
import shutil
import subprocess
import sys
import time

sys.dont_write_bytecode = True
import crate_lines

TOP = crate_lines.TOP
PROGRAM = "spark"
PARTS = ("src", "specs", "proofs")
PLACES = TOP / "crates" / PROGRAM / "out" / "places"

# How many at most, and how much memory the largest takes.
AT_ONCE = 4
MEMORY = 4_000_000_000


def libraries_below(lines):
    """The libraries below the program, lowest first, each with all that are below it."""
    found = {}

    def add(crate):
        if crate not in found and crate in lines:
            below = set()
            for library in lines[crate][1]:
                add(library)
                if library in found:
                    below |= {library} | found[library]
            found[crate] = below

    add(PROGRAM)
    del found[PROGRAM]
    return found


def length_of(crate):
    """How many bytes of code a crate has: its proof takes longer by these, and hardly by those of lemmas."""
    files = [file for file in (TOP / "crates" / crate / "src").glob("**/*") if file.is_file()]
    return sum(file.stat().st_size for file in files)


def ways(below):
    """Of each crate the bytes of the longest chain from it up to the program."""
    found = {}
    for crate in reversed(list(below)):
        above = [found[it] for it in below if crate in below[it]]
        found[crate] = length_of(crate) + max(above, default=0)
    return found


def room():
    """How many crates can be proved at a time."""
    count = min(AT_ONCE, len(os.sched_getaffinity(0)))
    for line in pathlib.Path("/proc/meminfo").read_text().splitlines():
        if line.startswith("MemAvailable:"):
            count = min(count, int(line.split()[1]) * 1024 // MEMORY)
    return max(count, 1)


def link(source, target):
    """The same file at another path; a copy where the file system has no hard links."""
    try:
        os.link(source, target)
    except OSError:
        shutil.copy2(source, target)


def linked(source, target):
    """The same files in another folder."""
    shutil.copytree(source, target, copy_function=link)


def hold(crates):
    """Waits until no other rt works in the folders of these crates, and holds them until this process ends."""
    held = [os.open(TOP / "crates" / crate, os.O_RDONLY) for crate in sorted(crates)]
    for folder in held:
        try:
            fcntl.flock(folder, fcntl.LOCK_EX | fcntl.LOCK_NB)
        except BlockingIOError:
            print("spark: waiting for another rt in this checkout", file=sys.stderr, flush=True)
            fcntl.flock(folder, fcntl.LOCK_EX)


class Place:
    """Folders in which one crate at a time is proved."""

    def __init__(self, number, below, lines):
        self.top = PLACES / str(number)
        self.crates = self.top / "crates"
        self.below = below
        for crate in below:
            for part in PARTS:
                source = TOP / "crates" / crate / part
                if source.is_dir():
                    linked(source, self.crates / crate / part)
        text = ["%s: %s\n" % (lines[it][0], " ".join(lines[it][1])) for it in below]
        (self.top / "crates.txt").write_text("".join(text))
        shutil.copy(TOP / "HANDLES", self.top)

    def begin(self, crate, jobs):
        """Begins to prove a crate over the libraries below it."""
        self.crate = crate
        for library in self.below[crate]:
            target = self.crates / library / "out" / "rlib"
            if not target.exists():
                linked(TOP / "crates" / library / "out" / "rlib", target)
        kept = TOP / "crates" / crate / "out"
        if kept.exists():
            kept.rename(self.crates / crate / "out")
        with open(self.top / "said", "w") as said:
            self.process = subprocess.Popen(
                ["rt", "lib", "--jobs", str(jobs)],
                cwd=self.crates / crate,
                stdin=subprocess.DEVNULL,
                stdout=said,
                stderr=said,
            )
        self.jobs = jobs

    def end(self, log):
        """Brings back what the crate's proof left, adds what rt said to the log, and gives its status."""
        status = self.process.wait()
        made = self.crates / self.crate / "out"
        if made.exists():
            made.rename(TOP / "crates" / self.crate / "out")
        log.write("== %s\n%s" % (self.crate, (self.top / "said").read_text(errors="replace")))
        log.flush()
        return status


def prove_all(below, lines, log):
    """Whether all are proved."""
    begun, length, left, proved = time.monotonic(), ways(below), set(below), set()
    count = room()
    free, busy = [Place(number, below, lines) for number in range(count)], []
    try:
        while left or busy:
            ready = sorted((it for it in left if below[it] <= proved), key=lambda it: -length[it])
            for at, crate in enumerate(ready):
                idle = count - sum(place.jobs for place in busy)
                if not free or idle < 1:
                    break
                place = free.pop()
                place.begin(crate, max(1, idle // (len(ready) - at)))
                left.remove(crate)
                busy.append(place)
                minutes, seconds = divmod(int(time.monotonic() - begun), 60)
                number = len(below) - len(left)
                print(
                    "spark: proving %s, %d of %d (%d min %d s)" % (crate, number, len(below), minutes, seconds),
                    file=sys.stderr,
                    flush=True,
                )
            ended = [place for place in busy if place.process.poll() is not None]
            for place in ended:
                busy.remove(place)
                if place.end(log):
                    # (its last lines are the end of the log)
                    for other in busy:
                        other.process.terminate()
                        other.end(open(os.devnull, "w"))
                    busy = []
                    return False
                proved.add(place.crate)
                free.append(place)
            if not ended:
                time.sleep(0.2)
        return True
    finally:
        for place in busy:
            place.process.terminate()
            place.end(log)


def main():
    if len(sys.argv) != 2:
        print(__doc__)
        return 2
    lines = crate_lines.read(crate_lines.LINES.read_text())
    below = libraries_below(lines)
    hold(below)
    shutil.rmtree(PLACES, ignore_errors=True)
    with open(sys.argv[1], "a") as log:
        try:
            return 0 if prove_all(below, lines, log) else 1
        except (OSError, shutil.Error) as error:
            log.write("%s\n" % error)
            return 1
        except KeyboardInterrupt:
            return 130
        finally:
            shutil.rmtree(PLACES, ignore_errors=True)


if __name__ == "__main__":
    sys.exit(main())
