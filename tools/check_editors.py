#!/usr/bin/env python3
"""Checks the files in editors/ against the lines that `spark` writes, and against docs/TOOL.md.

    python3 tools/check_editors.py

Each matcher of lines (VS Code, GitHub, Vim, Emacs, GNAT Studio) has to take each report and each
refusal with the right file, line, column, code and text, and no other line. The man page has to
render without a warning, and to name each command, status, code, rule and limit of today. The
completions are run, or read, by their shells. The scripts in the pipelines, the makefile and the
hook are run with stand-ins for `rt`, `git` and `spark-show`, and have to give them the right words
and to fail if they do. What isn't installed is left out, and a note says so. Status 1 if something
is wrong; each fault is a line on standard error.
"""
import collections
import contextlib
import importlib.util
import json
import os
import pathlib
import re
import shlex
import shutil
import subprocess
import sys
import tempfile
import types

TOP = pathlib.Path(__file__).resolve().parent.parent
EDITORS = TOP / "editors"
EXAMPLES = TOP / "crates/spark_examples/data"

# Names that a source may have. None begins with a blank, as Vim drops that.
NAMES = [
    "main.adb",
    "src/work-body.ads",
    "/home/me/main.adb",
    "../a b/c d.adb",
    "a:b.adb",
    "c:/a.adb",
    "a:1:2: b.adb",
    "main.adb:8:36",
    "O1 a: b.adb",
    "accepted",
    "grün (1).adb",
    "a, b & 'c'.adb",
]
# Rules and names of places as they may be in reports (docs/RULES.md).
RULES = ["O1", "O11", "O14", "A1", "A2", "V4"]
PLACES = ["X", "X.all", "Head_1.Next.all.Items(?).all", "O1", "K5.all", "Store.Kept", "Ada.Text_IO"]
WORDS = [
    "moved",
    "borrowed",
    "observed",
    "overlaps another actual",
    "overlaps a global of the callee",
    "constant view",
    "source ends before the observer",
    "not rooted in the traversed parameter",
    "not rooted in the borrower",
]

# What other commands will write, what the script `spark` says while it builds, and what spark-show
# says below a line. None of this is a report or a refusal.
OTHERS = [
    "main.adb:8:36: leak of cell 4",
    "a b.adb:8:36: X.all checked",
    "main.adb:8:36: K5 checked",
    "main.adb:8:36: O1 excused",
    "main.adb:8:36: K5.all excused",
    "main.adb:8:36: raised Constraint_Error",
    "main.adb:8:36: raised End_Error",
    "steps spent: 100",
    "steps 10, made 2, freed 1, leaked 1, slots 2",
    "selftest 3: output 3 bytes, steps 29, made 1, freed 1, leaked 0",
    "spark: proving and building; the log is /a b/build.log",
    "spark: proving ada_lexer, 2 of 14 (1 min 5 s)",
    "spark: the build failed; the end of its log:",
    "src/lib.rt:3:4: error: not proved",
    "   14 |       Put_Line (Integer'Image (X.all));",
    "      |                                ^",
    "      = O1: a read of what is moved or borrowed (docs/ERRORS.md)",
    "make: *** [spark.mk:11: spark] Error 1",
    "",
]

Line = collections.namedtuple("Line", "file line column code text")
FAULTS, NOTES = [], []


def fault(text):
    FAULTS.append(text)


def shown(line):
    return "%s:%d:%d: %s %s" % line


# ---- what spark writes


def table(page, *columns):
    """The rows of the page's first table with these columns: their texts, without backquotes."""
    rows, places = [], None
    for line in page.splitlines():
        cells = [cell.strip().replace("\\|", "|") for cell in re.split(r"(?<!\\)\|", line)[1:-1]]
        cells = [cell.replace("`", "") for cell in cells]
        if places is None and cells and all(column in cells for column in columns):
            places = [cells.index(column) for column in columns]
        elif places is not None and not cells:
            break
        elif places is not None and not set(cells[0]) <= set("-: "):
            rows.append([cells[place] for place in places])
    if not rows:
        fault("docs/TOOL.md has no table with the columns " + ", ".join(columns))
    return rows


class Page:
    """docs/TOOL.md, as far as the files for editors rest on it."""

    def __init__(self):
        page = (TOP / "docs/TOOL.md").read_text(encoding="utf-8")
        blocks = re.findall(r"^```\w*\n(.*?)^```", page, re.S | re.M)
        lines = [line for block in blocks for line in block.splitlines()]
        self.commands = {line.split()[1] for line in lines if line.startswith("spark ")}
        if not self.commands:
            fault("docs/TOOL.md shows no command `spark ...`")
        statuses = table(page, "status", "today")
        self.statuses = {status for status, today in statuses if today.startswith("yes")}
        refusals = table(page, "code", "text", "today")
        self.rules = dict(table(page, "rule", "what it forbids"))
        self.texts = {code: text for code, text, _ in refusals}
        self.today = {code: text for code, text, today in refusals if today.startswith("yes")}
        # (a limit that isn't one of today has "to come" after its code)
        limits = table(page, "number", "beyond it")
        limits = [cell for cell, beyond in limits if "to come" not in beyond]
        self.limits = {number for cell in limits for number in re.findall(r"\d[\d,]*", cell)}
        texts = [text for text, _ in table(page, "text", "to")]
        self.usage = [line for line in [*lines, *texts] if line.startswith("usage: ")]
        if not self.usage:
            fault("docs/TOOL.md shows no usage line")
        self.lines = [line for line in lines if re.match(r"[^ ]+\.ad[bs]:", line)]


def split(text, files, page):
    """A report or refusal of one of these files, taken apart without a matcher, or else None."""
    file = max((it for it in files if text.startswith(it + ":")), key=len, default=None)
    parts = text[len(file) + 1 :].split(":", 2) if file else []
    code, _, said = parts[2][1:].partition(" ") if len(parts) == 3 else ("", "", "")
    is_report = re.fullmatch(r"\S+: (%s)" % "|".join(WORDS), said)
    if is_report or said and page.texts.get(code) == said:
        return Line(file, int(parts[0]), int(parts[1]), code, said)
    return None


def heads(page):
    """The reports and refusals of the examples' heads, and their other lines."""
    found, others = [], []
    for path in sorted(EXAMPLES.rglob("*.ad[bs]")):
        files = []
        for line in path.read_bytes().decode("latin-1").split("\n"):
            if not line.startswith("--"):
                break
            key, _, rest = line.rstrip("\r").partition("--> ")[2].partition(" ")
            if key == "spark":
                files = rest.split(" ")[1:]
            elif key in ("out", "err"):
                taken = split(rest, files, page)
                found += [taken] if taken else []
                others += [] if taken else [rest]
    if not found or not others:
        fault("no lines were found in the heads of " + str(EXAMPLES))
    return found, others


def samples(page):
    """Each report and refusal that is tried, and each other line."""
    found, others = heads(page)
    for line in page.lines:
        taken = split(line, [line.partition(":")[0]], page)
        found += [taken] if taken else []
        others += [] if taken else [line]
    for at, (code, text) in enumerate(page.texts.items()):
        found += [Line(name, at + 1, 9 ** (at % 7), code, text) for name in NAMES]
    for name in NAMES:
        texts = ["%s: %s" % (place, word) for place in PLACES for word in WORDS]
        found += [Line(name, 10, 100, rule, text) for rule in RULES for text in texts]
    return sorted(set(found)), sorted({*others, *OTHERS, "accepted", *page.usage})


def compare(who, wanted, got, others):
    """Holds the answers of a matcher, by the lines, to what it should take."""
    wrong = [(shown(line), line, got[shown(line)]) for line in wanted if got[shown(line)] != line]
    wrong += [(line, None, got[line]) for line in others if got[line] is not None]
    for line, right, answer in wrong[:3]:
        answer, right = answer and tuple(answer), right and tuple(right)
        fault("%s: %r is taken as %s in place of %s" % (who, line, answer, right))
    if len(wrong) > 3:
        fault("%s: %d further lines" % (who, len(wrong) - 3))


def ran(*words):
    """A command that has ended, with what it wrote."""
    return subprocess.run(words, stdin=subprocess.DEVNULL, capture_output=True, errors="replace")


def version(command):
    """What a command says of itself."""
    return ran(command, "--version").stdout


# ---- matchers


def by_pattern(pattern, line):
    """The answer of a pattern of VS Code or GitHub, whose signs mean the same in Python."""
    found = re.search(pattern["regexp"], line)
    if not found:
        return None
    part = lambda key: found[pattern[key]]
    return Line(part("file"), int(part("line")), int(part("column")), part("code"), part("message"))


def check_patterns(wanted, others):
    tasks = json.loads((EDITORS / "vscode/tasks.json").read_text())["tasks"]
    matchers = json.loads((EDITORS / "github/spark-matcher.json").read_text())["problemMatcher"]
    patterns = [("editors/vscode/tasks.json", it["problemMatcher"]["pattern"]) for it in tasks]
    patterns += [("editors/github/spark-matcher.json", *it["pattern"]) for it in matchers]
    lines = [*map(shown, wanted), *others]
    for who, pattern in patterns:
        compare(who, wanted, {line: by_pattern(pattern, line) for line in lines}, others)


def check_emacs(wanted, others):
    """The pattern of Emacs, read as one of Python."""
    who = "editors/emacs/spark.el"
    text = (EDITORS / "emacs/spark.el").read_text(encoding="utf-8")
    found = re.search(r"""'\("((?:[^"\\]|\\.)*)" (\d) (\d) (\d)\)""", text)
    if not found or text.count("(") - text.count(r"\\(") != text.count(")") - text.count(r"\\)"):
        return fault(who + " has no pattern, or its parentheses don't match")
    pattern = re.sub(r"\\(.)", r"\1", found[1])
    # (in Emacs a group is \( \), and a bare parenthesis stands for itself)
    signs = {r"\(": "(", r"\)": ")", "(": r"\(", ")": r"\)"}
    pattern = re.compile(re.sub(r"\\?[()]", lambda sign: signs[sign[0]], pattern), re.M)
    places = [int(found[at]) for at in (2, 3, 4)]
    # (a pattern of Emacs can't look ahead, so it takes lines of `spark leaks` too, once that is there)
    to_come = [line for line in others if re.search(r" (checked|excused)$", line)]
    by_line = {shown(it): it for it in wanted}
    for line in [*by_line, *others]:
        taken = pattern.search(line)
        got = taken and [taken[place] for place in places]
        want = by_line.get(line)
        if line not in to_come and got != (want and [want.file, str(want.line), str(want.column)]):
            fault("%s: %r is taken as %s" % (who, line, got))


def lines_of_gnat_studio(lines):
    """What the plug-in of GNAT Studio lists for these lines, and the command that it ran."""
    listed, commands = [], []

    class Process:
        def __init__(self, command, on_exit):
            commands.append(command)
            on_exit(self, 1, "\n".join(lines) + "\n")

    sources = [types.SimpleNamespace(path=path) for path in ("/p/a.ads", "/p/a.adb", "/p/a.c")]
    project = types.SimpleNamespace(sources=lambda recursive: sources)
    editor = types.ModuleType("GPS")
    editor.Process, editor.File = Process, str
    editor.Project = types.SimpleNamespace(root=lambda: project)
    editor.Console = lambda name: types.SimpleNamespace(write=lambda text: None)
    add = lambda category, *place: listed.append(Line(*place[:3], *place[3].partition(" ")[::2]))
    editor.Locations = types.SimpleNamespace(add=add, remove_category=lambda category: listed.clear())
    helper = types.ModuleType("gps_utils")
    helper.interactive = lambda **words: lambda function: function
    with modules(GPS=editor, gps_utils=helper):
        spec = importlib.util.spec_from_file_location("spark_plug_in", EDITORS / "gnatstudio/spark.py")
        plug_in = importlib.util.module_from_spec(spec)
        spec.loader.exec_module(plug_in)
        plug_in.check()
    return listed, commands


@contextlib.contextmanager
def modules(**stand_ins):
    """Imports find these modules for a while."""
    sys.modules.update(stand_ins)
    try:
        yield
    finally:
        for name in stand_ins:
            del sys.modules[name]


def check_gnat_studio(wanted, others):
    who = "editors/gnatstudio/spark.py"
    told, commands = lines_of_gnat_studio([*others, *map(shown, wanted), *others])
    if told != wanted:
        wrong = [pair for pair in zip(told, wanted) if pair[0] != pair[1]][:1]
        fault("%s: %d lines are taken in place of %d; %s" % (who, len(told), len(wanted), wrong))
    if commands != [["spark-show", "--order", "/p/a.ads", "/p/a.adb"]]:
        fault("%s runs %s" % (who, commands))


def error_format():
    """The formats of the Vim plugin as Vim holds them, in order."""
    text = (EDITORS / "vim/compiler/spark.vim").read_text(encoding="utf-8")
    value = re.search(r"^CompilerSet errorformat=(.*(?:\n *\\.*)*)", text, re.M)[1]
    value = re.sub(r"\n *\\", "", value)
    return re.split(r"(?<!\\),", re.sub(r"\\(.)", r"\1", value))


FIELDS = {"f": "(?P<f>.+?)", "l": r"(?P<l>\d+)", "c": r"(?P<c>\d+)", "m": "(?P<m>.+)"}


def vim_pattern(form):
    """Whether this format's lines are left out, and its pattern in Python. (:help errorformat)"""
    is_left_out = form.startswith("%-G")
    made = ""
    for item, plain in re.findall(r"%(.)|([^%])", form[3 if is_left_out else 0 :]):
        if item:
            made += FIELDS.get(item) or {"#": "*"}.get(item, item)
        else:
            made += "\\" + plain if plain in ".*^$~[" else plain
    # from Vim's patterns to Python's
    made = re.sub(r"\\%\((.*?)\\\)\\@=", r"(?=\1)", made).replace("\\+", "+")
    return is_left_out, re.compile(made + r"\Z")


def by_vim_formats(formats, line):
    for is_left_out, pattern in formats:
        found = pattern.match(line)
        if found and is_left_out:
            return None
        if found:
            return Line(found["f"], int(found["l"]), int(found["c"]), *found["m"].partition(" ")[::2])
    return Line("", 0, 0, "", line)


def lines_by_vim(editor, lines):
    """What `:make` of Vim takes of a fake spark that writes these lines."""
    with tempfile.TemporaryDirectory() as room:
        room = pathlib.Path(room)
        (room / "lines").write_text("\n".join(lines) + "\n", encoding="utf-8")
        fake = room / "spark"
        fake.write_text('#!/bin/sh\n[ "$*" = "check main.adb" ] && cat lines >&2\nexit 1\n')
        fake.chmod(0o755)
        told = "json_encode([bufname(d.bufnr), d.lnum, d.col, d.text])"
        commands = ["compiler spark", "silent make! main.adb"]
        commands += ["call writefile(map(getqflist(), {_, d -> %s}), 'told')" % told, "qa!"]
        words = ["-es", "-u", "NONE", "-i", "NONE", "-N", "--cmd", "set encoding=utf-8"]
        words += ["--cmd", "let &rtp = $SPARK_EDITORS . ',' . &rtp"]
        words += [word for command in commands for word in ("-c", command)]
        environment = dict(os.environ, SHELL="/bin/sh", SPARK_EDITORS=str(EDITORS / "vim"))
        environment["PATH"] = "%s:%s" % (room, os.environ["PATH"])
        how = {"cwd": room, "env": environment, "timeout": 60}
        how.update(stdin=subprocess.DEVNULL, capture_output=True)
        try:
            subprocess.run([editor, *words], **how)
        except subprocess.TimeoutExpired:
            return None
        if not (room / "told").exists():
            return None
        told = (room / "told").read_text(encoding="utf-8").splitlines()
        return [Line(*place, *text.partition(" ")[::2]) for *place, text in map(json.loads, told)]


def check_vim(wanted, others):
    who = "editors/vim/compiler/spark.vim"
    formats = [vim_pattern(form) for form in error_format()]
    lines = [*map(shown, wanted), *others]
    compare(who + ", as read here", wanted, {it: by_vim_formats(formats, it) for it in lines}, others)
    # (a small Vim has no list of errors)
    editors = [it for it in ("vim", "nvim") if shutil.which(it)]
    editors = [it for it in editors if it == "nvim" or "+quickfix" in version(it)]
    if not editors:
        NOTES.append("no Vim is installed, so its formats were only read by a pattern of Python")
    for editor in editors:
        told = lines_by_vim(editor, [*others, *map(shown, wanted), *others])
        if told is None:
            fault("%s: %s made no list of errors" % (who, editor))
        elif told != wanted:
            wrong = [pair for pair in zip(told, wanted) if pair[0] != pair[1]][:1]
            counts = "%d lines are taken in place of %d" % (len(told), len(wanted))
            fault("%s, run by %s: %s; the first wrong one: %s" % (who, editor, counts, wrong))


# ---- the man page


def entries(page, section):
    """The entries of a section of the man page: for each, its tag and its text."""
    body = re.search(r'^\.SH "?%s"?\n(.*?)(?=^\.SH |\Z)' % section, page, re.S | re.M)
    if not body:
        fault("editors/spark.1 has no section " + section)
        return []
    found = re.findall(r"^\.TP\n\.BR? (\S+)\n(.*?)(?=^\.TP|^\.PP|\Z)", body[1], re.S | re.M)
    return [(tag, text.replace("\n", " ").strip()) for tag, text in found]


def same(what, wanted, got):
    for it in sorted(wanted - got):
        fault("editors/spark.1 lacks the %s %s of docs/TOOL.md" % (what, it))
    for it in sorted(got - wanted):
        fault("editors/spark.1 has the %s %s, which docs/TOOL.md hasn't as of today" % (what, it))


def check_man(tool):
    path = EDITORS / "spark.1"
    page = path.read_text(encoding="utf-8")
    same("command", tool.commands, set(re.findall(r"^\.B spark (\w+)$", page, re.M)))
    # (11 is that of the script, which the table doesn't have)
    same("status", tool.statuses | {"11"}, {tag for tag, _ in entries(page, "EXIT STATUS")})
    same("limit", tool.limits, {tag for tag, _ in entries(page, "LIMITS")})
    for what, section, texts in (("code", "REFUSALS", tool.today), ("rule", "RULES", tool.rules)):
        told = entries(page, section)
        same(what, set(texts), {tag for tag, _ in told})
        for code, text in told:
            if not text.startswith(texts.get(code, "")):
                fault("editors/spark.1 has %r for %s in place of %r" % (text, code, texts[code]))
    renderers = ["man --warnings -E UTF-8 -l -Tutf8 -Z", "groff -ww -man -Tutf8 -Z"]
    renderers += ["mandoc -Tlint -Wwarning"]
    found = [words.split() for words in renderers if shutil.which(words.split()[0])]
    # (the man of some systems has none of these words)
    found = [words for words in found if words[0] != "man" or re.match(r"man \d", version("man"))]
    if not found:
        NOTES.append("neither man nor groff nor mandoc is installed, so the man page wasn't rendered")
    for words in found:
        made = ran(*words, str(path))
        said = made.stderr + (made.stdout if words[0] == "mandoc" else "")
        if made.returncode or said.strip():
            fault("editors/spark.1, rendered by %s: %s" % (words[0], said.strip() or made.returncode))


# ---- completions


def completed(folder, *words):
    """What the completion of bash offers for the last of these words."""
    script = 'cd "$1"; shift; . "$0"; complete -p spark >&2; COMP_WORDS=("$@"); '
    script += 'COMP_CWORD=$(($# - 1)); _spark; printf "%s\\n" "${COMPREPLY[@]}"'
    made = ran("bash", "--norc", "-c", script, str(EDITORS / "bash/spark.bash"), folder, "spark", *words)
    if made.returncode or "-F _spark spark" not in made.stderr:
        fault("editors/bash/spark.bash: %s" % (made.stderr.strip() or made.returncode))
    return {line for line in made.stdout.splitlines() if line}


def check_bash(tool):
    if not shutil.which("bash"):
        NOTES.append("no bash is installed, so its completion wasn't run")
        return
    with tempfile.TemporaryDirectory() as folder:
        for name in ("a.adb", "a b.ads", "a:c.adb", "a*.adb", "a.ali", "adb", "b.adb"):
            pathlib.Path(folder, name).touch()
        pathlib.Path(folder, "a.d").mkdir()
        sources = {"a.adb", "a b.ads", "a:c.adb", "a*.adb", "a.d"}
        for words, wanted in (
            ([""], tool.commands),
            (["ch"], {"check"}),
            (["x"], set()),
            (["check", "a"], sources),
            (["check", "b.adb", "a"], sources),
            (["check", ""], sources | {"b.adb"}),
            (["check", "none"], set()),
            (["other", ""], set()),
        ):
            got = completed(folder, *words)
            if got != wanted:
                texts = " ".join(["spark", *words]), sorted(got), sorted(wanted)
                fault("editors/bash/spark.bash offers after %r %s in place of %s" % texts)


def check_shells(tool):
    check_bash(tool)
    for shell, name, offer in (
        ("zsh", "editors/zsh/_spark", r"[( ](\w+)\\:"),
        ("fish", "editors/fish/spark.fish", r" -a (\w+)"),
    ):
        offered = set(re.findall(offer, (TOP / name).read_text(encoding="utf-8")))
        if offered != tool.commands:
            texts = name, sorted(offered), sorted(tool.commands)
            fault("%s offers the commands %s in place of %s" % texts)
        if not shutil.which(shell):
            NOTES.append("no %s is installed, so its completion wasn't read by it" % shell)
            continue
        made = ran(shell, "-n", str(TOP / name))
        if made.returncode or made.stderr:
            fault("%s: %s" % (name, made.stderr.strip() or made.returncode))


# ---- pipelines

# The words of spark-show in a pipeline, after its own options.
SOURCES = ["src/a.adb", "src/a.ads"]
KEPT = ["--program", "spark-kept/bin/spark", "--order", "--sarif", "spark.sarif", *SOURCES]


@contextlib.contextmanager
def room_with_stand_ins():
    """A folder with two sources, a program `git` and `spark-show`, and a copy of spark that is built."""
    with tempfile.TemporaryDirectory() as room:
        room = pathlib.Path(room)
        (room / "src").mkdir()
        for name in SOURCES:
            (room / name).touch()
        (room / "src/a.c").touch()
        note = '#!/bin/sh\nfor word; do echo "$word"; done >>"$TOLD"\n'
        files = {
            "bin/spark-show": note + "exit 3\n",
            "made/spark": '#!/bin/sh\ntest $# = 0 && exit 6\n',
            "made/crates/spark/out/spark": "#!/bin/sh\n",
            "made/tools/spark-show": 'import os, sys\nopen(os.environ["TOLD"], "a").write("\\n".join(sys.argv[1:]))\nsys.exit(3)\n',
            "made/docs/ERRORS.md": "",
            "bin/git": '#!/bin/sh\ncase $1 in clone) cp -R "$MADE" "$3" ;; *) test -d "$2" ;; esac\n',
        }
        for name, text in files.items():
            (room / name).parent.mkdir(parents=True, exist_ok=True)
            (room / name).write_text(text)
            (room / name).chmod(0o755)
        yield room


def told_by(room, script, shell=("bash", "-e", "-o", "pipefail", "-c")):
    """The status of a script in this folder, and the words that it gave to spark-show."""
    told = room / "told"
    told.unlink(missing_ok=True)
    more = {"TOLD": str(told), "MADE": str(room / "made"), "SOURCES": "src/*.ad[bs]", "SPARK_COMMIT": "c", "SPARK_REPOSITORY": "r"}
    environment = dict(os.environ, **more, PATH="%s:%s" % (room / "bin", os.environ["PATH"]))
    done = subprocess.run([*shell, script], cwd=room, env=environment, stdin=subprocess.DEVNULL, capture_output=True)
    return done.returncode, told.read_text().splitlines() if told.exists() else None


def expect(who, got, wanted):
    if got != wanted:
        fault("%s gives the status and the words %s in place of %s" % (who, got, wanted))


def read_yaml(name):
    try:
        import yaml
    except ImportError:
        NOTES.append("no PyYAML is installed, so %s wasn't read" % name)
        return None
    try:
        return yaml.safe_load((EDITORS / name).read_text(encoding="utf-8"))
    except yaml.YAMLError as error:
        fault("editors/%s: %s" % (name, error))


def check_github(room):
    who = "editors/github/spark.yml"
    flow = read_yaml("github/spark.yml")
    if not flow:
        return
    if flow["permissions"].get("security-events") != "write" or flow["env"]["SOURCES"] != "src/*.ad[bs]":
        fault(who + " lacks a permission or its sources")
    steps = flow["jobs"]["check"]["steps"]
    if not all(("uses" in step) != ("run" in step) for step in steps):
        fault(who + " has a step that neither uses nor runs anything")
    kept = [step["with"] for step in steps if step.get("uses", "").startswith("actions/cache/")]
    if len(kept) != 2 or kept[0] != kept[1] or "env.SPARK_COMMIT" not in kept[0]["key"]:
        fault(who + " doesn't look for what it keeps")
    shutil.copytree(room / "made", room / "spark-source")
    build, check = [step["run"] for step in steps if "run" in step]
    expect(who, told_by(room, build), (0, None))
    expect(who, told_by(room, check), (3, KEPT))


def check_gitlab(room):
    who = "editors/gitlab/spark.yml"
    flow = read_yaml("gitlab/spark.yml")
    if not flow:
        return
    job = flow["spark"]
    if job["cache"]["key"] != "spark-$SPARK_COMMIT" or job["variables"]["SOURCES"] != "src/*.ad[bs]":
        fault(who + " keeps the program by another key, or lacks its sources")
    script = "\n".join(job["before_script"] + job["script"])
    expect(who, told_by(room, script), (3, KEPT))
    # with what was kept, nothing is fetched and built
    shutil.rmtree(room / "made")
    expect(who, told_by(room, script), (3, KEPT))


def check_hook(room):
    who = "editors/pre-commit/pre-commit-config.yaml"
    hooks = read_yaml("pre-commit/pre-commit-config.yaml")
    if not hooks:
        return
    (hook,) = hooks["repos"][0]["hooks"]
    if hook["pass_filenames"] or hook["language"] != "system" or not re.search(hook["files"], "src/a.adb"):
        fault(who + " would not run")
    expect(who, told_by(room, shlex.join(shlex.split(hook["entry"]))), (3, ["--order", *SOURCES]))


def check_make(room):
    if not shutil.which("make"):
        NOTES.append("no make is installed, so its file wasn't run")
        return
    words = "SPARK_SOURCES = $(wildcard src/*.ads src/*.adb)\ninclude %s\n" % (EDITORS / "make/spark.mk")
    (room / "Makefile").write_text(words)
    (room / "spark").touch()
    expect("editors/make/spark.mk", told_by(room, "make -s spark"), (2, ["--order", "src/a.ads", "src/a.adb"]))


def check_pipelines():
    for check in (check_github, check_gitlab, check_hook, check_make):
        with room_with_stand_ins() as room:
            check(room)
    words = [it["command"] for it in json.loads((EDITORS / "vscode/tasks.json").read_text())["tasks"] if it["type"] == "shell"]
    with room_with_stand_ins() as room:
        expect("editors/vscode/tasks.json", told_by(room, *words), (3, ["--order", *SOURCES]))


def main():
    tool = Page()
    wanted, others = samples(tool)
    check_patterns(wanted, others)
    check_vim(wanted, others)
    check_emacs(wanted, others)
    check_gnat_studio(wanted, others)
    check_man(tool)
    check_shells(tool)
    check_pipelines()
    for note in NOTES:
        print("check_editors: note: " + note)
    for text in FAULTS:
        print("check_editors: " + text, file=sys.stderr)
    if not FAULTS:
        counts = "%d reports and refusals and %d other lines" % (len(wanted), len(others))
        print("check_editors: %s, each as it should be" % counts)
    return 1 if FAULTS else 0


if __name__ == "__main__":
    sys.exit(main())
