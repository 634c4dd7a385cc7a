#!/usr/bin/env python3
"""Tries tools/spark-show on all examples, on the programs and on the table of what is left out.

    python3 tools/check_show.py [--program PATH]

Without --program it runs the script `spark`. Status 1 where something is wrong; each fault is a line.

- The lines of `spark` come through byte for byte, with its status, and no other line looks like one.
- Below each line stand the line of the source and a caret in its column, and the title of the code.
- Of each `moved`, `borrowed` and `observed` a line where the name was given away or lent is told; for some
  reports these lines are known.
- At each refused source of the table the construct is named, and none is named at a plain mistake.
- Each example and program is as its head says, those in `natural`, as they are written in SPARK, and in `reduced`,
  changed for `spark`, among them.
- `--leaks` lets each leak check through, with the line of the source, a caret and what its word means.
- `--run` runs each example of `spark run` on its input, with the same output, lines and status. Below each lost cell
  and exception stand the line of the source, a caret and what it means; at the end stands what the status says.
- `--left-out` finds each row of the table in its refused source, and the first refusal of each program in `natural`;
  it finds nothing in an accepted program or row.
- `--order`, `--explain`, `--sarif` and a missing file do what is said of them.
"""
import argparse
import importlib.machinery
import importlib.util
import json
import os
import pathlib
import re
import subprocess
import sys
import tempfile
from concurrent.futures import ThreadPoolExecutor

sys.dont_write_bytecode = True
import errors_page
import left_out_page

TOP = pathlib.Path(__file__).resolve().parent.parent
SHOW = TOP / "tools" / "spark-show"
DATA = TOP / "crates" / "spark_examples" / "data"
FAULTS, MET = [], set()

# Examples of P1, P3 and N1 that are no construct of Ada, or none that the table has.
PLAIN = """P1_cut_short P1_function_without_return P1_missing_semicolon P1_mixed_operators P1_mixed_short_circuit P1_no_statement
P1_second_else P1_sign_after_operator P1_two_relations N1_undeclared N1_use_of_procedure""".split()

# A program with a report.
EXAMPLE = str(DATA / "rules" / "O1_use_after_free.adb")

# The lines where the name was given away or lent, for some reports: those of loops, branches, exits and `return`, of
# names that get a value between, and of parts.
WHERE = {
    "O10_two_lists_with_one_rest.adb:38:10": [36],
    "O11_written_while_observed.adb:29:7": [27],
    "O14_borrowed_part.adb:19:13": [17],
    "O1_O3_O4_O14_on_one_path.adb:17:9": [16],
    "O1_O3_O4_O14_on_one_path.adb:20:10": [16, 19],
    "O1_after_an_exit.adb:17:9": [12],
    "O1_facts_go_on.adb:15:9": [13],
    "O1_freed_in_a_loop.adb:15:44": [16],
    "O1_freed_in_a_loop.adb:16:14": [16],
    "O1_moved_element.adb:19:12": [17],
    "O1_moved_part.adb:17:9": [16],
    "O1_second_iteration_of_a_loop.adb:13:20": [14],
    "O3_borrowed_by_a_traversal_call.adb:31:7": [29],
    "O3_ring.adb:14:4": [14],
    "O3_write_gives_nothing_back.adb:15:9": [13],
    "O4_wrong_swap.adb:14:9": [13],
    "O7_past_a_moved_part.adb:22:4": [19],
    "O9_early_return.adb:19:10": [16],
    "O9_package_object_freed.adb:19:4": [15],
    "V2_freed_in_the_inner_block.adb:18:13": [17],
    "main.adb:20:16": [18],
    "main.adb:23:39": [14],
}

# The objects of a log, as SARIF 2.1.0 has them: the properties that spark-show writes, those with a star required.
# Any other property is a fault. A name in place of a type is that of an object, a set is what a word may be, and a
# number the least that is allowed.
SHAPES = {
    "log": {"$schema": str, "version*": {"2.1.0"}, "runs*": ["run"]},
    "run": {
        "tool*": "tool",
        "columnKind": {"utf16CodeUnits", "unicodeCodePoints"},
        "invocations": ["invocation"],
        "results": ["result"],
    },
    "tool": {"driver*": "driver"},
    "driver": {"name*": str, "rules": ["rule"]},
    "rule": {"id*": str, "shortDescription": "message", "fullDescription": "message", "help": "message"},
    "message": {"text*": str},
    "invocation": {"executionSuccessful*": bool, "exitCode": 0, "toolExecutionNotifications": ["notification"]},
    "notification": {"message*": "message", "level": {"none", "note", "warning", "error"}},
    "result": {
        "ruleId": str,
        "ruleIndex": 0,
        "level": {"none", "note", "warning", "error"},
        "message*": "message",
        "locations": ["location"],
        "relatedLocations": ["location"],
    },
    "location": {"physicalLocation": "place", "message": "message"},
    "place": {"artifactLocation*": "artifact", "region": "region"},
    "artifact": {"uri*": str},
    "region": {"startLine*": 1, "startColumn": 1},
}
# A reference by RFC 3986: an absolute one of this scheme, or a relative one whose first segment has no colon.
REFERENCE = r"(file:///|(?!/)(?![^/]*:))([A-Za-z0-9_.~!$&'()*+,;=:@/-]|%[0-9A-F]{2})+"


def fault(text):
    FAULTS.append(text)


def loaded():
    """The module spark-show."""
    loader = importlib.machinery.SourceFileLoader("spark_show", str(SHOW))
    module = importlib.util.module_from_spec(importlib.util.spec_from_loader("spark_show", loader))
    loader.exec_module(module)
    return module


SPARK_SHOW = loaded()


def run(folder, *words, data=b""):
    return subprocess.run([str(word) for word in words], cwd=folder, input=data, capture_output=True)


def head(path):
    """The files, the status and the lines of both outputs that the head of an example tells."""
    files, status, out, err = [], None, [], []
    for line in path.read_bytes().decode("latin-1").split("\n"):
        if not line.startswith("--"):
            break
        key, _, rest = line.rstrip("\r").partition("--> ")[2].partition(" ")
        if key == "spark":
            files = rest.split(" ")[1:]
        elif key == "status":
            status = int(rest)
        elif key in ("out", "err"):
            (out if key == "out" else err).append(rest)
    return files, status, out, err


def examples():
    """The examples that are checked as programs, with what their heads tell."""
    for path in sorted(DATA.glob("*/*.adb")):
        files, status, out, err = head(path)
        if files and "check" in path.read_text("latin-1").split("\n--> spark ", 1)[1][:6]:
            yield path, files, status, out, err


def told(data):
    """What spark-show adds, for each line of `spark`: a list of pairs."""
    found = []
    for line in data.decode("utf-8", "replace").splitlines():
        if re.match(r"[^ ].*?:\d+:\d+: [A-Z]\d+ ", line):
            found.append((line, []))
        elif found:
            found[-1][1].append(line)
    return found


def try_example(program, example):
    """Runs an example through `spark` and through spark-show, and compares."""
    path, files, status, out, err = example
    plain = run(path.parent, program, "check", *files)
    with tempfile.TemporaryDirectory() as folder:
        log = pathlib.Path(folder, "log")
        made = run(path.parent, SHOW, "--program", program, "--sarif", log, *files)
        faults = ["--sarif: " + it for it in faults_of_results(read_log(log), files, status, err)]
    if (plain.returncode, plain.stdout, plain.stderr.decode("latin-1").splitlines()) != (
        status,
        "".join(line + "\n" for line in out).encode(),
        err,
    ):
        faults.append("spark doesn't answer as the head says")
    if (made.returncode, made.stdout) != (plain.returncode, plain.stdout):
        faults.append("another status or another standard output")
    lines = plain.stderr.splitlines(keepends=True)
    if [line for line in made.stderr.splitlines(keepends=True) if SPARK_SHOW.split(line.decode().rstrip("\n"), files)] != lines:
        faults.append("the lines of spark don't come through")
    for line, below in told(made.stderr):
        faults += faults_below(path, files, line, below)
        if path.parent.name == "natural" and not any("likely left out" in text for text in below):
            faults.append("no construct is named")
    return ["%s: %s" % (path.relative_to(DATA), it) for it in faults]


def faults_below(path, files, line, below):
    """What is wrong below a line of `spark`."""
    it = SPARK_SHOW.split(line, files)
    source = (path.parent / it.file).read_bytes().split(b"\n")
    shown = [text for text in below if re.match(r" *\d* \| ", text)]
    quoted = source[it.line - 1] if it.line <= len(source) else b""
    if len(shown) != 2 or not shown[0].startswith("%5d | " % it.line):
        yield "no line of the source below " + line
    elif shown[0][8:].isascii() and len(shown[1]) - 8 != it.column:
        yield "the caret isn't in its column: " + line
    elif shown[0][8:].isascii() and shown[0][8:].replace(" ", "") != re.sub(rb"[ \r]", b"", quoted).decode():
        yield "another line of the source below " + line
    if any("spark-show has a fault" in text for text in below):
        yield "a fault below " + line
    if not any("%s: %s" % (it.code, errors_page.title_of(it.code)) in text for text in below):
        yield "no title below " + line
    told_of = [text for text in below if re.search(r" lines? \d|earlier iteration", text)]
    if it.word in ("moved", "borrowed", "observed") and not told_of:
        yield "no line where the name was given away or lent: " + line


def try_examples(program):
    all_examples = list(examples())
    with ThreadPoolExecutor() as pool:
        for found in pool.map(lambda it: try_example(program, it), all_examples):
            for text in found:
                fault(text)
    for position in sorted(set(WHERE) - MET):
        fault("no report at " + position)
    return len(all_examples)


def faults_of_leaks(path, status, out, made):
    """What is wrong with what spark-show adds to the leak checks of an example."""
    if made.returncode != status:
        yield "another status"
    lines = made.stdout.decode().splitlines()
    told = [text for text in lines if SPARK_SHOW.leak(text, [path.name])]
    if told != out:
        yield "the lines of spark don't come through"
    source = path.read_bytes().decode().split("\n")
    for at, text in enumerate(lines):
        it = SPARK_SHOW.leak(text, [path.name])
        if it and lines[at + 1 : at + 3] != ["%5d | %s" % (it.line, source[it.line - 1]), "      | %s^" % (" " * (it.column - 1))]:
            yield "another line of the source or another caret below " + text
        if it and lines[at + 3 : at + 4] != ["      = " + SPARK_SHOW.LEAKS[it.word]]:
            yield "the word isn't explained below " + text


def try_leaks(program):
    """Runs the examples of leak checks through spark-show."""
    paths = sorted(DATA.glob("leaks/*.adb"))
    for path in paths:
        files, status, out, _ = head(path)
        for text in faults_of_leaks(path, status, out, run(path.parent, SHOW, "--program", program, "--leaks", *files)):
            fault("%s: %s" % (path.relative_to(DATA), text))
    return len(paths)


def input_of(path):
    """The standard input that the head of an example tells."""
    entries = re.findall(rb"^--> in ?(.*)$", path.read_bytes(), re.M)
    return b"".join(line + b"\n" for line in entries)


def faults_of_run(path, status, out, err, made):
    """What is wrong with what spark-show adds to the lines of a run."""
    lines = made.stderr.decode().splitlines()
    if (made.returncode, made.stdout) != (status, "".join(line + "\n" for line in out).encode()):
        yield "another status or another standard output"
    if [text for text in lines if not re.match(r" *\d* \| |      = ", text)] != err:
        yield "the lines of spark don't come through"
    source = path.read_bytes().decode().split("\n")
    for at, text in enumerate(lines):
        it = SPARK_SHOW.event(text, [path.name])
        if it and lines[at + 1 : at + 3] != ["%5d | %s" % (it.line, source[it.line - 1]), "      | %s^" % (" " * (it.column - 1))]:
            yield "another line of the source or another caret below " + text
        if it and lines[at + 3 : at + 4] != ["      = " + it.meant]:
            yield "it isn't said what it means: " + text
    if status in SPARK_SHOW.ENDINGS and lines[-1] != "      = " + SPARK_SHOW.ENDINGS[status]:
        yield "it isn't said what status %d means" % status


def try_runs(program):
    """Runs the examples of runs through spark-show, and answers that no example has."""
    paths = sorted(DATA.glob("runs/*.adb"))
    met = set()

    def one(path):
        words, status, out, err = head(path)
        met.add(status)
        made = run(path.parent, SHOW, "--program", program, "--run", *words, data=input_of(path))
        return ["%s: %s" % (path.relative_to(DATA), text) for text in faults_of_run(path, status, out, err, made)]

    with ThreadPoolExecutor() as pool:
        for found in pool.map(one, paths):
            for text in found:
                fault(text)
    for status, lines in ((10, ["input too large"]),):
        met.add(status)
        with tempfile.TemporaryDirectory() as name:
            source, other = pathlib.Path(name, "f.adb"), pathlib.Path(name, "other")
            source.write_text("procedure F is\n")
            other.write_text("#!/bin/sh\necho '%s' >&2\nexit %d\n" % (lines[0], status))
            other.chmod(0o755)
            made = run(name, SHOW, "--program", other, "--run", "f.adb")
            for text in faults_of_run(source, status, [], lines, made):
                fault("--run, %s: %s" % (lines[0], text))
    for status in set(SPARK_SHOW.ENDINGS) - met:
        fault("no run has the status %d" % status)
    return len(paths)


def guessed(program, folder, source):
    """What spark-show says is left out in a source."""
    pathlib.Path(folder, "f.adb").write_text(source)
    made = run(folder, SHOW, "--program", program, "f.adb")
    found = re.search(r"likely left out: (.*) \(docs/LEFT_OUT.md\)", made.stderr.decode())
    return found and found[1], made.stderr.decode()


def try_constructs(program):
    """Each construct of the table is named at its refused source, with what stands in its place."""

    def one(it):
        with tempfile.TemporaryDirectory() as folder:
            name, said = guessed(program, folder, it.refused)
        if name != it.name:
            return "left_out.txt, %s: named is %s" % (it.name, name)
        return None if "in its place: " + it.place in said else "left_out.txt, %s: not what is in its place" % it.name

    with ThreadPoolExecutor() as pool:
        for text in pool.map(one, left_out_page.constructs()):
            if text:
                fault(text)
    for name in PLAIN:
        path = next(DATA.glob("refusals/%s.adb" % name))
        with tempfile.TemporaryDirectory() as folder:
            found, _ = guessed(program, folder, path.read_text())
        if found:
            fault("%s: it is named %s" % (name, found))


def rows():
    """The files and the refusal of each row of the tables that has one."""
    for table in sorted(DATA.glob("tables/*.txt")):
        files = []
        for line in table.read_text().split("\n"):
            if line.startswith("> "):
                yield "%s: %s" % (table.name, line), files, line[2:]
                files = []
            elif line.startswith("== "):
                files.append((line[3:], []))
            elif files:
                files[-1][1].append(line)
            elif line and not line.startswith(("--", "$ ")):
                files.append(("f.adb", [line]))


def try_rows():
    """What is said of the rows of the tables, many of them out of order, is said without a fault of spark-show."""
    with tempfile.TemporaryDirectory() as name:
        for what, files, wanted in rows():
            paths = []
            for file, lines in files:
                path = pathlib.Path(name, str(len(paths)), file)
                path.parent.mkdir(exist_ok=True)
                path.write_bytes("\n".join(lines).encode())
                paths.append(str(path))
            named = dict(zip((file for file, _ in files), paths))
            line = SPARK_SHOW.split(wanted, list(named))
            if line is None:
                continue
            line.file = named[line.file]
            try:
                reader = SPARK_SHOW.Reader(paths)
                reader.meaning(line)
                SPARK_SHOW.ordered(paths)
                list(SPARK_SHOW.left_out(reader.program.texts))
            except Exception as error:
                fault("%s: %r" % (what, error))


# ---- what is left out


def found(files):
    """The constructs that `--left-out` finds in files with these bytes: code, construct, line."""
    texts = {name: SPARK_SHOW.Text(name, data) for name, data in files}
    for line, instead in SPARK_SHOW.left_out(texts):
        split = re.fullmatch(r"(.*):(\d+):(\d+): ([A-Z]\d) (.*)", line)
        if split is None or not instead:
            fault("--left-out prints %s, %s" % (line, instead))
        else:
            yield split[4], split[5], int(split[2])


def accepted():
    """Programs that no code of a refusal stands for: a name, and the files with their bytes."""
    for path, files, status, _, _ in examples():
        if status != 2:
            yield str(path.relative_to(DATA)), [(file, (path.parent / file).read_bytes()) for file in files]
    for what, files, wanted in rows():
        if wanted in ("accepted", "typed"):
            yield what, [(file, "\n".join(lines).encode()) for file, lines in files]


def try_left_out(program):
    """What `--left-out` finds, and that it finds nothing where nothing is left out."""
    for it in left_out_page.constructs():
        told = {(code, construct) for code, construct, _ in found([("f.adb", it.refused.encode())])}
        if (it.code, it.name) not in told:
            fault("--left-out doesn't find %s" % it.name)
    for what, files in accepted():
        for code, construct, line in found(files):
            fault("--left-out: %s, line %d: %s %s" % (what, line, code, construct))
    for path in sorted(DATA.glob("natural/*.adb")):
        made = run(path.parent, SHOW, "--program", program, path.name).stderr.decode()
        refusal = re.search(r":(\d+):\d+: (\w\d) .*\n(?:.*\n)*?.*likely left out: (.*) \(docs", made)
        if not refusal or (refusal[2], refusal[3], int(refusal[1])) not in found([(path.name, path.read_bytes())]):
            fault("--left-out doesn't find the first refusal of " + path.name)
        made = run(path.parent, SHOW, "--left-out", path.name)
        if made.returncode != 2 or "in its place: " not in made.stdout.decode() or "there may be more" not in made.stderr.decode():
            fault("--left-out %s: status %d" % (path.name, made.returncode))


# ---- the words of spark-show


def try_order(program):
    """The files of a program in any order give what they give in the right one."""
    queue = DATA / "queue"
    right = run(queue, program, "check", "queues.ads", "queues.adb", "main.adb")
    for files in (["main.adb", "queues.adb", "queues.ads"], ["queues.adb", "main.adb", "queues.ads"]):
        made = run(queue, SHOW, "--program", program, "--order", *files)
        lines = [line for line, _ in told(made.stderr)]
        if (made.returncode, lines) != (right.returncode, right.stderr.decode().splitlines()):
            fault("--order %s: %s" % (" ".join(files), made.stderr.decode()))
    with tempfile.TemporaryDirectory() as name:
        folder = pathlib.Path(name)
        for file, text in (
            ("a.ads", "with B; package A is X : B.T; end A;"),
            ("a.adb", "package body A is procedure P is begin null; end P; end A;"),
            ("b.ads", "with C; package B is subtype T is C.T; end B;"),
            ("c.ads", "package C is type T is (One, Two); end C;"),
            ("main.adb", "with A; procedure Main is begin null; end Main;"),
        ):
            (folder / file).write_text(text)
        made = SPARK_SHOW.ordered([str(folder / it) for it in ("a.adb", "a.ads", "b.ads", "c.ads", "main.adb")])
        names = [pathlib.Path(it).name for it in made]
        if names != ["c.ads", "b.ads", "a.ads", "a.adb", "main.adb"]:
            fault("--order gives %s" % names)


def try_words(program):
    """--explain, a missing file, a folder, and words that spark-show doesn't have."""
    for row in errors_page.ROWS:
        made = run(TOP, SHOW, "--explain", row.code)
        if made.returncode or not made.stdout.decode().startswith("%s: %s\n\n" % (row.code, row.title)):
            fault("--explain " + row.code)
    if not run(TOP, SHOW, "--help").stdout.decode().startswith("Runs `spark check`"):
        fault("spark-show --help")
    with open("/dev/full", "wb") as full:
        made = subprocess.run([SHOW, "--program", program, EXAMPLE], cwd=TOP, stderr=full, stdout=subprocess.DEVNULL)
    if made.returncode != 8:
        fault("spark-show: status %d where nothing can be written" % made.returncode)
    for words, status, wanted in (
        (["--explain", "Z9"], 6, "no code Z9"),
        (["--left-out", EXAMPLE], 0, "0 found"),
        (["--left-out", "absent.adb"], 7, "absent.adb: No such file"),
        (["--left-out"], 6, "spark-show [--program PATH]"),
        (["--left-out", "--order", EXAMPLE], 6, "--order: usage: 1 to 64 files"),
        (["--leaks", "--run", EXAMPLE], 6, "spark-show [--program PATH]"),
        (["--steps=1", EXAMPLE], 6, "spark-show [--program PATH]"),
        (["--run", "--steps=4294967297", EXAMPLE], 6, "spark-show [--program PATH]"),
        (["--program", program, "--run", "absent.adb"], 7, "there is no file absent.adb"),
        (["--program", program, "absent.adb"], 7, "there is no file absent.adb"),
        (["--program", program, "tools"], 7, "tools is no file"),
        (["--program", program, "-x"], 6, "-x: usage: 1 to 64 files"),
        (["-x"], 6, "-x: usage: 1 to 64 files"),
        (["f.adb", "--order"], 6, "options stand before the files"),
        (["--program", program, "--sarif", "absent/log", EXAMPLE], 8, "absent/log: No such file"),
        (["--program", program, *["f.adb"] * 65], 6, "65 files: usage: 1 to 64 files"),
        (["--wrong"], 6, "spark-show [--program PATH]"),
        ([], 6, "spark-show [--program PATH]"),
        (["--program", "/absent", "f.adb"], 6, "/absent"),
    ):
        made = run(TOP, SHOW, *words)
        if made.returncode != status or wanted not in made.stderr.decode():
            fault("spark-show %s: status %d, %s" % (" ".join(words), made.returncode, made.stderr.decode()))


# ---- SARIF


def faults_of_shape(shape, made, name):
    """What of a log isn't of a shape: a type, a word of a set, a number from a least one on, an object or a list."""
    if isinstance(shape, list):
        if not isinstance(made, list):
            return [name + " is no list"]
        return [text for it in made for text in faults_of_shape(shape[0], it, name)]
    if isinstance(shape, str):
        known = {it.rstrip("*"): part for it, part in SHAPES[shape].items()}
        found = ["%s has no %s" % (name, it[:-1]) for it in SHAPES[shape] if it.endswith("*") and it[:-1] not in made]
        for key, part in made.items():
            found += faults_of_shape(known[key], part, key) if key in known else ["%s has a property %s" % (name, key)]
        return found
    if isinstance(shape, set):
        is_right = made in shape
    elif isinstance(shape, int) and not isinstance(shape, bool):
        is_right = type(made) is int and made >= shape
    else:
        is_right = type(made) is shape and made != ""
    return [] if is_right else ["%s is %r" % (name, made)]


def faults_of_log(log):
    """What isn't in a log as SARIF 2.1.0 has it."""
    found = faults_of_shape("log", log, "the log")
    if found:
        return found
    for made in log["runs"]:
        rules = [it["id"] for it in made["tool"]["driver"]["rules"]]
        if len(set(rules)) != len(rules):
            found.append("two rules have one id")
        for result in made["results"]:
            if rules[result["ruleIndex"]] != result["ruleId"]:
                found.append("a rule has another index")
            for place in result["locations"] + result.get("relatedLocations", []):
                uri = place["physicalLocation"]["artifactLocation"]["uri"]
                if not re.fullmatch(REFERENCE, uri):
                    found.append("%s is no reference" % uri)
    return found


def read_log(path):
    """A log, which has to be UTF-8 without a mark before it, and text of Unicode throughout."""
    data = path.read_bytes()
    log = json.loads(data.decode("utf-8"))
    json.dumps(log, ensure_ascii=False).encode("utf-8")
    return log


def faults_of_results(log, files, status, err):
    """What differs between a log and the lines of `spark`."""
    yield from faults_of_log(log)
    made = log["runs"][0]
    found = []
    for it in made["results"]:
        place = it["locations"][0]["physicalLocation"]
        found.append((place["artifactLocation"]["uri"], place["region"]["startLine"], it["message"]["text"]))
        said = it["message"]["text"].split()[0]
        position = "%s:%d:%d" % (found[-1][0], found[-1][1], place["region"]["startColumn"])
        related = [each["physicalLocation"]["region"]["startLine"] for each in it.get("relatedLocations", [])]
        if position in WHERE and said[0] == "O":
            MET.add(position)
        if position in MET and said[0] == "O" and WHERE[position] != related:
            yield "%s: lines %s are told, and not %s" % (position, related, WHERE[position])
    lines = [SPARK_SHOW.split(line, files) for line in err]
    if found != [(it.file, it.line, "%s %s" % (it.code, it.said)) for it in lines]:
        yield "other results"
    if log["version"] != "2.1.0" or made["invocations"][0]["exitCode"] != status:
        yield "another version or status"


def try_names(program):
    """The logs of runs with names of files that aren't plain, and of one that couldn't read a file."""
    with tempfile.TemporaryDirectory() as name:
        folder = pathlib.Path(name)
        log = folder / "log"
        source = pathlib.Path(EXAMPLE).read_bytes()
        not_read = ["absent.adb", os.fsdecode(b"\xff.adb")]
        names = ["a:b.adb", "a b#?%.adb", "\u00e9.adb", "./sub/.//c.adb", str(folder / "d.adb"), *not_read]
        (folder / "sub").mkdir()
        for file in names:
            if file != "absent.adb":
                pathlib.Path(folder, file).write_bytes(source)
            status = run(folder, SHOW, "--program", program, "--sarif", log, file).returncode
            made = read_log(log)
            for text in faults_of_log(made):
                fault("--sarif %s: %s" % (ascii(file), text))
            is_read = made["runs"][0]["invocations"][0]["executionSuccessful"]
            if is_read != (status == 1) or is_read != (file not in not_read):
                fault("--sarif %s: status %d" % (ascii(file), status))
        for file, uri in (("./sub/.//c.adb", "sub/c.adb"), ("a:b.adb", "a%3Ab.adb"), ("/a/b.adb", "file:///a/b.adb")):
            if SPARK_SHOW.uri(file) != uri:
                fault("--sarif: the uri of %s is %s" % (file, SPARK_SHOW.uri(file)))


def executable(program):
    """The program itself in place of the script `spark`, which would look for newer sources at each run."""
    if program == TOP / "spark":
        run(TOP, program)
        program = TOP / "crates" / "spark" / "out" / "spark"
    return str(program)


def main():
    words = argparse.ArgumentParser()
    words.add_argument("--program", default=str(TOP / "spark"))
    program = executable(pathlib.Path(words.parse_args().program).resolve())
    count = try_examples(program) + try_leaks(program) + try_runs(program)
    try_constructs(program)
    try_rows()
    try_left_out(program)
    try_order(program)
    try_words(program)
    try_names(program)
    constructs = len(left_out_page.constructs())
    print("\n".join(FAULTS + ["%d programs and %d constructs, %d faults" % (count, constructs, len(FAULTS))]))
    return 1 if FAULTS else 0


if __name__ == "__main__":
    sys.exit(main())
