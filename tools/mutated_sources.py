#!/usr/bin/env python3
"""Asks `spark` of changed sources, and tells each answer that isn't one of docs/TOOL.md.

    python3 tools/mutated_sources.py [--count N] [--seed N] [--jobs N] [--program PATH] [--command check|run] [--seconds N] [FILE...]

The sources are those given, or the examples of crates/spark_examples, one file each. Some of their tokens are dropped,
doubled, exchanged, or replaced by others of the file; identifiers are replaced by identifiers, and numbers by numbers;
lines and statements are exchanged, doubled or dropped; bytes are changed; or the text is cut. For each changed source the program has to end within --seconds, with a
status of the command, and with the lines that this status has, each in the form of docs/TOOL.md. `run` gets a few lines of
numbers as input. The answers are counted by status and code. A source whose answer isn't well is kept in a folder that is
named at the end, and the status is 1. With one seed and one number of jobs the sources are the same each time.
"""
import argparse
import collections
import multiprocessing
import os
import pathlib
import random
import re
import shutil
import signal
import sys
import tempfile

TOP = pathlib.Path(__file__).resolve().parent.parent
TOKEN = re.compile(rb"--[^\n]*|\"(?:[^\"\n]|\"\")*\"|[A-Za-z][A-Za-z0-9_]*|[0-9][0-9_]*|=>|\.\.|:=|/=|>=|<=|\*\*|<>|[^\sA-Za-z0-9]|\s+")
PLACE = rb"t\.adb:[1-9]\d*:[1-9]\d*: "
REFUSAL = re.compile(PLACE + rb"([A-Z]\d+) [a-z ,'-]+\n")
REPORT = re.compile(rb"(?:" + PLACE + rb"([OVA]\d+) \S+: [a-z ,]+\n)+")
LEAK = rb"(?:" + PLACE + rb"leak of cell [1-9]\d*\n)*"
RAISED = re.compile(LEAK + PLACE + rb"raised ([A-Z][a-z]+_[A-Z][a-z]+)\n")
SPENT = re.compile(LEAK + rb"steps spent: \d+\n")
RESERVED = {word.encode() for word in (TOP / "docs" / "LANGUAGE.md").read_text().split("\n## Reserved words\n")[1].strip().split("\n\n")[0].split()}
OPENERS = set(b"begin case declare else elsif end for function if is loop package procedure record then type when while with".split())
INPUT = b"12 -7\n 2147483647\n0 1 2 3\nx 5\n"
STEPS = "100000"


# ---- changes


def cut_up(text):
    return TOKEN.findall(text)


def solid(tokens):
    """Where tokens stand that aren't blanks or comments."""
    return [i for i, token in enumerate(tokens) if not token[:1].isspace() and not token.startswith(b"--")]


def drop(rng, tokens):
    del tokens[rng.choice(solid(tokens))]


def double(rng, tokens):
    i = rng.choice(solid(tokens))
    tokens.insert(i, tokens[i] + b" ")


def exchange(rng, tokens):
    places = solid(tokens)
    i, j = rng.choice(places), rng.choice(places)
    tokens[i], tokens[j] = tokens[j], tokens[i]


def replace(rng, tokens):
    places = solid(tokens)
    tokens[rng.choice(places)] = tokens[rng.choice(places)]


def rename(rng, tokens):
    """An identifier in the place of another one."""
    words = [i for i in solid(tokens) if tokens[i][:1].isalpha() and tokens[i].lower() not in RESERVED]
    if words:
        tokens[rng.choice(words)] = tokens[rng.choice(words)]


def statements(rng, tokens):
    """A declaration or statement without others in it is dropped or doubled, or exchanged with another one."""
    ends = [i for i, token in enumerate(tokens) if token == b";"]
    plain = [k for k in range(len(ends) - 1) if not any(token.lower() in OPENERS for token in tokens[ends[k] : ends[k + 1]])]
    if len(plain) < 2:
        return
    i, j = sorted(rng.sample(plain, 2))
    first, second = tokens[ends[i] + 1 : ends[i + 1] + 1], tokens[ends[j] + 1 : ends[j + 1] + 1]
    kind = rng.randrange(4)
    if kind == 0:
        tokens[ends[i] + 1 : ends[i + 1] + 1] = []
    elif kind == 1:
        tokens[ends[j] + 1 : ends[j] + 1] = first
    elif kind == 2:
        tokens[ends[i] + 1 : ends[i] + 1] = second
    else:
        tokens[ends[j] + 1 : ends[j + 1] + 1], tokens[ends[i] + 1 : ends[i + 1] + 1] = first, second


def renumber(rng, tokens):
    numbers = [i for i in solid(tokens) if tokens[i][:1].isdigit()]
    if numbers:
        tokens[rng.choice(numbers)] = rng.choice((b"0", b"1", b"2", b"3", b"2147483647", b"2147483648", b"65536"))


def lines(rng, text):
    """A line is dropped or doubled, or two are exchanged."""
    rows = text.splitlines(keepends=True)
    if not rows:
        return text
    i, j = rng.randrange(len(rows)), rng.randrange(len(rows))
    kind = rng.randrange(3)
    if kind == 0:
        del rows[i]
    elif kind == 1:
        rows.insert(j, rows[i])
    else:
        rows[i], rows[j] = rows[j], rows[i]
    return b"".join(rows)


def byte(rng, text):
    if not text:
        return text
    i = rng.randrange(len(text))
    return text[:i] + bytes((rng.randrange(256),)) + text[i + rng.randrange(2) :]


def cut(rng, text):
    return text[: rng.randrange(len(text) + 1)]


# most changes keep the grammar, so that later stages are asked too
BY_TOKEN = (drop, double, exchange, replace, renumber, renumber) + 6 * (rename,) + 6 * (statements,)
BY_TEXT = (lines, lines, byte, cut)


def changed(rng, text):
    for _ in range(rng.choice((1, 1, 1, 2, 3))):
        if rng.randrange(6) == 0:
            text = rng.choice(BY_TEXT)(rng, text)
        else:
            tokens = cut_up(text)
            if solid(tokens):
                rng.choice(BY_TOKEN)(rng, tokens)
                text = b"".join(tokens)
    return text


# ---- answers


def told(command, status, out, err):
    """The name of the answer, or None: it isn't one of the command."""
    if status == 1 and not out:
        match = REPORT.fullmatch(err)
        return "reports" if match else None
    if status == 2 and not out:
        match = REFUSAL.fullmatch(err)
        return match.group(1).decode() if match else None
    if command == "check":
        return "accepted" if (status, out, err) == (0, b"accepted\n", b"") else None
    if status in (0, 5):
        well = re.fullmatch(LEAK, err) and (status == 5) == bool(err)
        return ("ends with a leak" if err else "ends") if well else None
    for ending, form, name in ((3, RAISED, None), (4, SPENT, "steps spent")):
        if status == ending:
            match = form.fullmatch(err)
            return (name or match.group(1).decode()) if match else None
    return None


class Late(Exception):
    """The program had its time."""


def late(number, frame):
    raise Late


def asked(words, streams, seconds):
    """The status of the program, and what it wrote to both outputs. (Spawned over files, not by
    `subprocess`: that takes as long as the program itself.)"""
    for stream in streams[1:]:
        os.ftruncate(stream, 0)
    for stream in streams:
        os.lseek(stream, 0, os.SEEK_SET)
    actions = [(os.POSIX_SPAWN_DUP2, stream, number) for number, stream in enumerate(streams)]
    child = os.posix_spawn(words[0], words, os.environ, file_actions=actions)
    try:
        signal.setitimer(signal.ITIMER_REAL, seconds)
        _, status = os.waitpid(child, 0)
        signal.setitimer(signal.ITIMER_REAL, 0)
    except Late:
        os.kill(child, signal.SIGKILL)
        os.waitpid(child, 0)
        raise
    out, err = (os.pread(stream, os.fstat(stream).st_size, 0) for stream in streams[1:])
    return os.waitstatus_to_exitcode(status), out, err


def ask(job):
    """Asks of `count` sources; gives the answers by name, and what isn't well."""
    seeds, count, seed, program, command, seconds, folder = job
    rng, counts, wrong = random.Random(seed), collections.Counter(), []
    texts = [pathlib.Path(name).read_bytes() for name in seeds]
    place = pathlib.Path(folder) / str(seed)
    place.mkdir()
    os.chdir(place)
    signal.signal(signal.SIGALRM, late)
    pathlib.Path("input").write_bytes(INPUT)
    streams = [os.open("input", os.O_RDONLY)] + [os.open(name, os.O_RDWR | os.O_CREAT) for name in ("out", "err")]
    words = [program, command] + (["--steps=" + STEPS] if command == "run" else []) + ["t.adb"]
    for number in range(count):
        text = changed(rng, rng.choice(texts))
        pathlib.Path("t.adb").write_bytes(text)
        try:
            status, out, err = asked(words, streams, seconds)
            name = told(command, status, out, err)
            said = "status %d, %r, %r" % (status, out[:200], err[:200])
        except Late:
            name, said = None, "no answer within %d seconds" % seconds
        if name is None:
            kept = "%d_%d.adb" % (seed, number)
            (pathlib.Path(folder) / kept).write_bytes(text)
            wrong.append("%s: %s" % (kept, said))
        counts[name or "not well"] += 1
    for stream in streams:
        os.close(stream)
    os.chdir(folder)
    shutil.rmtree(place)
    return counts, wrong


def main():
    words = argparse.ArgumentParser()
    words.add_argument("--count", type=int, default=10000)
    words.add_argument("--seed", type=int, default=1)
    words.add_argument("--jobs", type=int, default=1)
    words.add_argument("--program", default=str(TOP / "crates" / "spark" / "out" / "spark"))
    words.add_argument("--command", choices=("check", "run"), default="check")
    words.add_argument("--seconds", type=float, default=10)
    words.add_argument("files", nargs="*", metavar="FILE")
    given = words.parse_args()
    seeds = given.files or sorted(map(str, (TOP / "crates" / "spark_examples" / "data").rglob("*.ad[bs]")))
    program = str(pathlib.Path(given.program).resolve())
    folder = tempfile.mkdtemp(prefix="mutated_")
    shares = [given.count // given.jobs + (k < given.count % given.jobs) for k in range(given.jobs)]
    jobs = [(seeds, share, given.seed * 1000 + k, program, given.command, given.seconds, folder) for k, share in enumerate(shares)]
    counts, wrong = collections.Counter(), []
    with multiprocessing.Pool(given.jobs) as pool:
        for found, bad in pool.imap_unordered(ask, jobs):
            counts += found
            wrong += bad
    for name, count in sorted(counts.items()):
        print("%9d %s" % (count, name))
    print("%9d sources, %d answers not well" % (sum(counts.values()), len(wrong)))
    if wrong:
        print("\n".join(wrong[:20]), "\nthe sources are in", folder)
        return 1
    shutil.rmtree(folder)
    return 0


if __name__ == "__main__":
    sys.exit(main())
