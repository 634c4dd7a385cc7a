#!/usr/bin/env python3
"""Times `./spark check` on sources of at most 4 MiB, and prints a row for each; docs/COSTS.md has the rows.

    python3 tools/bench.py [--steps | --runs] [FOLDER]

The sources are written to FOLDER, or to a temporary folder that is removed at the end. /usr/bin/time of GNU is needed.
With --steps a last column says how many states were carried along successors of points, for the sources that the rules on
facts are asked about. Valgrind counts these in a second run, which takes some fifty times as long.
With --runs it times `spark run` in place of that, and beside it the same work in Lua (lua5.4) and, as GNAT builds it
(gnatmake), in Ada, where these are there.
"""
import pathlib
import re
import shutil
import subprocess
import sys
import tempfile

TOP = pathlib.Path(__file__).resolve().parent.parent
SOURCE_BYTES = 4_194_304
TOKENS = 1_000_000
STATEMENTS = 15_000
OBJECTS = 512
# the sources whose points are many for their length, or whose facts are
FACTS = "most_facts branches_in_loop conditionals_in_row straight_line lists_of_cells_1000".split()

RESERVED = """abort abs abstract accept access aliased all and array at begin body case constant declare delay delta
    digits do else elsif end entry exception exit for function generic goto if in interface is limited loop mod new not
    null of or others out overriding package pragma private procedure protected raise range record rem renames requeue
    return reverse select separate some subtype synchronized tagged task terminate then type until use when while with
    xor""".split()
DELIMITERS = "& ' ( ) * + , - . / : ; < = > | => .. := /= >= <=".split()


def filled(text):
    """The text, made SOURCE_BYTES long by a last comment."""
    rest = SOURCE_BYTES - len(text)
    assert rest >= 3
    return text + "--" + "=" * (rest - 3) + "\n"


def form(statement):
    """A straight line with 512 objects and as many statements as may be, and long names and comments."""
    names = ["Object_%03d_" % i + "X" * 50 for i in range(OBJECTS)]
    lines = ["with Ada.Unchecked_Deallocation;", "procedure Main is", "   type Int_Ptr is access Integer;"]
    lines += ["   procedure Free is new Ada.Unchecked_Deallocation (Integer, Int_Ptr);"]
    lines += ["   %s : Int_Ptr;" % name for name in names]
    lines += ["begin"]
    for i in range(STATEMENTS):
        lines.append("   " + statement(names, i) + "  --  " + "c" * 100)
    lines.append("end Main;")
    return filled("\n".join(lines) + "\n")


def moved_on(names, i):
    """Each object is moved to the next one, so nothing is reported."""
    return "%s := %s;" % (names[(i + 1) % OBJECTS], names[i % OBJECTS])


def moved_again(names, i):
    """The first object is moved in each statement, so each but the first is reported."""
    return "%s := %s;" % (names[1 + i % (OBJECTS - 1)], names[0])


def token_kinds():
    """A text of all kinds of tokens, separators and comments."""
    line = " ".join(RESERVED) + " " + " ".join(word.upper() for word in RESERVED) + "\t" + " ".join(DELIMITERS)
    line += ' A_1 Object 0 7 1_000 2147483648 "a string with ""quotes"" in it" "" \v\f\r\n--  a comment \xe4\xf6\xfc\n'
    per_line = 2 * len(RESERVED) + len(DELIMITERS) + 8
    return filled(line * min(TOKENS // per_line, SOURCE_BYTES // len(line) - 1))


def procedure(statements):
    """A procedure with these statements."""
    lines = ["procedure Main is", "   N : Integer := 0;", "begin"] + ["   " + text for text in statements] + ["end Main;"]
    return filled("\n".join(lines) + "\n")


def assignments(count):
    """Assignments with one operator each."""
    return procedure(["N := N + 1;"] * count)


def deep_parentheses():
    """Assignments of a number in 62 parentheses, as many as may stand there."""
    return procedure(["N := " + "(" * 62 + "1" + ")" * 62 + ";"] * (TOKENS // 130))


def long_chains():
    """Assignments with 1,024 operators each, as many as may stand in one expression."""
    return procedure(["N := 0" + " + N" * 1_024 + ";"] * (TOKENS // 2_060))


def deep_blocks():
    """A statement in 63 blocks, again and again."""
    return procedure(["begin " * 63 + "null; " + "end; " * 63] * (TOKENS // 200))


def open_parentheses():
    """As many open parentheses as there may be tokens, none of which is closed."""
    head = "procedure Main is\n   N : Integer;\nbegin\n   N := "
    return (head + "(   \n" * SOURCE_BYTES)[:SOURCE_BYTES]


def one_region():
    """200,000 declarations in one region."""
    lines = ["X%d:Integer;" % i for i in range(1, 200_000)]
    return filled("procedure Main is\nX0:Integer:=0;\n" + "\n".join(lines) + "\nbegin null; end Main;\n")


def hiding_blocks():
    """60 nested blocks that each declare the same name, with 100,000 occurrences of it in the innermost one."""
    head = "procedure Main is X : Integer := 0; begin\n" + "declare X : Integer := 0; begin\n" * 60
    return filled(head + "X := X;\n" * 50_000 + "end;\n" * 60 + "end Main;\n")


def packages():
    """1,000 packages, each with a `with` and a `use` of the one before and the names that it declares."""
    lines = ["package P0 is X0 : Integer := 0; end P0;"]
    for i in range(1, 1_000):
        lines.append("with P%d; use P%d; package P%d is X%d : Integer := X%d; end P%d;" % (i - 1, i - 1, i, i, i - 1, i))
    lines.append("procedure Main is begin null; end Main;")
    return filled("\n".join(lines) + "\n")


def second_bodies():
    """A package with a long context, and 60,000 bodies of it."""
    names = ", ".join("P%d" % i for i in range(1_000))
    lines = ["package P%d is end P%d;" % (i, i) for i in range(1_000)]
    lines += ["with %s;" % names, "use %s;" % names] * 40
    lines += ["package Q is end Q;"] + ["package body Q is end Q;"] * 60_000
    return filled("\n".join(lines) + "\n")


def files():
    """64 files: packages that each use the one before in 1,000 declarations, and the main procedure."""
    texts = ["package P0 is X0 : Integer := 0; end P0;\n"]
    for i in range(1, 63):
        lines = ["with P%d; use P%d; package P%d is" % (i - 1, i - 1, i)]
        lines += ["Y%d : Integer := X%d;" % (j, i - 1) for j in range(1_000)]
        texts.append("\n".join(lines + ["X%d : Integer := X%d; end P%d;" % (i, i - 1, i)]) + "\n")
    texts.append("procedure Main is begin null; end Main;\n")
    texts[-1] += "--" + "=" * (SOURCE_BYTES - sum(len(text) for text in texts) - 3) + "\n"
    return texts


def chained(number, before, i):
    """A type that is an array, a record or a subtype of the one before."""
    if i % 3 == 0:
        return "type %s is array(1..1)of %s;" % (number, before)
    if i % 3 == 1:
        return "type %s is record X:%s;end record;" % (number, before)
    return "subtype %s is %s;" % (number, before)


def type_chain():
    """100,000 types, each made of the one before, and below them all a private type whose full one comes after them."""
    lines = ["package P is", "type A0 is private;"]
    lines += [chained("A%d" % i, "A%d" % (i - 1), i) for i in range(1, 100_000)]
    lines += ["private", "type A0 is (First);", "end P;"]
    return filled("\n".join(lines) + "\n")


def reversed_chain():
    """50,000 private types, each made of the next one, so that each full type stands before what it is made of."""
    count = 50_000
    lines = ["package P is"] + ["type A%d is private;" % i for i in range(count)] + ["private"]
    lines += ["type A%d is array(1..1)of A%d;" % (i, i + 1) for i in range(count - 1)]
    lines += ["type A%d is (First);" % (count - 1), "end P;"]
    return filled("\n".join(lines) + "\n")


def case_choices():
    """A `case` with 10,000 choices, none of them twice."""
    choices = "\n".join("when %d => null;" % i for i in range(10_000, 0, -1))
    return procedure(["case N is\n%s\nwhen others => null;\nend case;" % choices])


def array_aggregate():
    """An aggregate with a value for each of 65,536 elements."""
    lines = ["procedure Main is", "type A is array (1 .. 65536) of Integer;", "X : A := ("]
    lines += ["1," * 1_024] * 63 + ["1," * 1_023 + "1);", "begin null; end Main;"]
    return filled("\n".join(lines) + "\n")


def record_aggregate():
    """A record with 30,000 components, and an aggregate that names them from the last to the first."""
    names = ["C%d" % i for i in range(30_000)]
    lines = ["procedure Main is", "type R is record", ",\n".join(names) + " : Integer;", "end record;", "X : R := ("]
    lines += [",\n".join("%s => 1" % name for name in reversed(names)) + ");", "begin null; end Main;"]
    return filled("\n".join(lines) + "\n")


def selected_components():
    """A record with 30,000 components, of which the last 16,000 are each read once by their names."""
    names = ["C%d" % i for i in range(30_000)]
    lines = ["procedure Main is", "type R is record", ",\n".join(names) + " : Integer;", "end record;", "X : R;"]
    lines += ["N : Integer := 0;", "begin"] + ["N := X.%s;" % name for name in names[-16_000:]] + ["end Main;"]
    return filled("\n".join(lines) + "\n")


def named_of_components(count, names):
    """A record with 60,000 components, and so many aggregates that each name some of them alone."""
    lines = ["procedure Main is", "type R is record", ",\n".join("C%d" % i for i in range(60_000)) + " : Integer;", "end record;"]
    lines += ["X : R;", "begin"] + ["X := (%s);" % ",".join("%s=>1" % name for name in names)] * count + ["end Main;"]
    return filled("\n".join(lines) + "\n")


def value_of_many():
    """400,000 constants in one list, with a value that has 1,024 operators."""
    names = ["C%d" % i for i in range(400_000)]
    lines = ["procedure Main is", ",\n".join(names) + " : constant Integer := 0" + "+1" * 1_024 + ";", "begin null; end Main;"]
    return filled("\n".join(lines) + "\n")


def types_in_ring():
    """50,000 private types, each made of the next one, and the last one of the first."""
    count = 50_000
    lines = ["package P is"] + ["type A%d is private;" % i for i in range(count)] + ["private"]
    lines += ["type A%d is array(1..1)of A%d;" % (i, (i + 1) % count) for i in range(count)]
    return filled("\n".join(lines + ["end P;"]) + "\n")


def moves_of_parts():
    """100 statements that each move an object with 64 access parts 1,000 times."""
    parts = "type R is record " + ",".join("C%d" % i for i in range(64)) + " : List; end record;"
    lines = [parts, "type T is array (1 .. 1000) of R;", "A : R; X : T;"]
    return main_procedure(lines, ["X := (" + "A," * 999 + "A);"] * 100)


def static_chains():
    """Named numbers and bounds with 1,024 operators each, as many as may stand in a source."""
    chain = "0" + "+1" * 1_024
    lines = ["procedure Main is"]
    for i in range(TOKENS // 6_200):
        lines += ["N%d:constant:=%s;" % (i, chain), "type A%d is array(1..%s)of Integer;" % (i, chain)]
        lines += ["subtype S%d is Integer range 0..%s;" % (i, chain)]
    return filled("\n".join(lines + ["begin null; end Main;"]) + "\n")


def operator_chains():
    """Conditions and strings with 1,024 operators each, as many as may stand in a source."""
    conditions = ["if N + 0 = 1" + " and N = 1" * 511 + " then null; end if;", "if True" + " or else True" * 1_024 + " then null; end if;"]
    texts = ['Ada.Text_IO.Put ("a"' + '&"b"' * 1_024 + ");"]
    source = procedure((conditions + texts) * (TOKENS // 7_300))
    return filled("with Ada.Text_IO;\n" + source[: source.rindex("--")])


def main_procedure(declarations, statements):
    """A main procedure with lists of cells, over the type that its declarations begin with."""
    lines = ["with Ada.Unchecked_Deallocation;", "procedure Main is", "type Cell;", "type List is access Cell;"]
    lines += ["type Cell is record Value : Integer; Next : List; end record;"]
    lines += ["procedure Free is new Ada.Unchecked_Deallocation (Cell, List);"]
    return filled("\n".join(lines + declarations + ["begin"] + statements + ["end Main;"]) + "\n")


def most_facts():
    """A main procedure with 16,383 points and 512 facts, all in a loop of branches."""
    lists = ["X%d" % i for i in range(512)]
    statements = ["while N > 0 loop"]
    statements += ["if N = %d then %s := %s; end if;" % (i, lists[(i + 1) % 512], name) for i, name in enumerate(lists)]
    statements += ["if N > 7 then %s := null; end if;" % lists[i % 512] for i in range(7_000)]
    statements += ["null;"] * 332 + ["end loop;"]
    return main_procedure([", ".join(lists) + " : List;", "N : Integer := 1;"], statements)


def branches_in_loop():
    """Sixty branches in a loop, each of which moves or gives back."""
    lists = ["X%d" % i for i in range(60)]
    branches = ["if N = %d then X%d := X%d; else X%d := null; end if;" % (i, (i + 1) % 60, i, i) for i in range(60)]
    return main_procedure([", ".join(lists) + " : List;", "N : Integer := 1;"], ["while N > 0 loop"] + branches + ["end loop;"])


def conditionals_in_row():
    """Forty conditionals in a row, so 2 ** 40 control paths."""
    lists = ["X%d" % i for i in range(41)]
    branches = ["if N = %d then X%d := X%d; end if;" % (i, i + 1, i) for i in range(40)]
    return main_procedure([", ".join(lists) + " : List;", "N : Integer := 1;"], branches)


def straight_line():
    """10,000 statements of a straight line over 500 lists."""
    lists = ["X%d" % i for i in range(500)]
    moves = ["X%d := X%d;" % ((i + 1) % 500, i % 500) for i in range(10_000)]
    return main_procedure([", ".join(lists) + " : List;"], moves)


def package_of(declared, bodies):
    """A package with so many procedures S0, S1, .. of these bodies, and a main procedure."""
    lines = ["package P is"] + ["procedure S%d;" % i for i in range(len(bodies))] + ["end P;", "package body P is"] + declared
    lines += ["procedure S%d is\n%s" % (i, body) for i, body in enumerate(bodies)]
    lines += ["end P;", "with P; procedure Main is begin P.S0; end Main;"]
    return filled("\n".join(lines) + "\n")


CELLS = ["type Cell; type List is access Cell;", "type Cell is record Value : Integer; Next : List; end record;"]


def moves_of_many():
    """16 procedures with 512 lists each, so 512 facts, and 13,000 moves of one to the next."""
    lists = ["A%d" % i for i in range(512)]
    moves = ["%s:=%s;" % (lists[(i + 1) % 512], lists[i % 512]) for i in range(13_000)]
    return package_of(CELLS, [",".join(lists) + ":List;\nbegin\n" + "\n".join(moves) + "\nend;"] * 16)


def reads_of_many():
    """10 procedures with 511 lists that were moved, and 40,500 reads beside them."""
    lists = ["A%d" % i for i in range(511)]
    body = "\n".join(["T:=%s;" % name for name in lists] + ["N:=" + "N+" * 8 + "N;"] * 4_500)
    return package_of(CELLS, [",".join(lists) + ",T:List;N:Integer:=0;\nbegin\n" + body + "\nend;"] * 10)


def calls_of_many():
    """240,000 calls of a procedure that uses 10,000 package objects."""
    objects = ["O%d:Integer:=0;" % i for i in range(10_000)]
    used = "procedure C is begin\n" + "\n".join("O%d:=1;" % i for i in range(10_000)) + "\nend C;"
    return package_of(objects + [used], ["begin\n" + "C;\n" * 15_000 + "end;"] * 16)


def names_in_use():
    """16,000 packages in use, and 99,900 occurrences of a name that only the last one of them has."""
    names = ["P%d" % i for i in range(16_000)]
    lines = ["package %s is X%d:Integer:=0;end %s;" % (name, i, name) for i, name in enumerate(names)]
    used = ",".join(names)
    lines += ["with %s;use %s;" % (used, used), "procedure Main is begin"]
    lines += ["X15999:=" + "X15999+" * 997 + "X15999;"] * 100
    return filled("\n".join(lines + ["end Main;"]) + "\n")


def call_cycle():
    """10,000 procedures, each of which calls the next one and changes one of 1,000 package objects."""
    lines = ["package P is"] + ["G%d:Integer:=0;" % i for i in range(1_000)]
    lines += ["procedure Q%d;" % i for i in range(10_000)] + ["end P;", "package body P is"]
    for i in range(10_000):
        called, changed = (i + 1) % 10_000, i % 1_000
        lines.append("procedure Q%d is begin G%d:=G%d+1;if G%d<9 then Q%d;end if;end Q%d;" % (i, changed, changed, changed, called, i))
    lines += ["end P;", "with P; use P; procedure Main is begin Q0; end Main;"]
    return filled("\n".join(lines) + "\n")


def body_of(i):
    """The body of a procedure that adds a cell, changes one through a borrower, or reads all through an observer."""
    if i % 3 == 1:
        return "is begin L := new Cell'(%d, L);" % i
    if i % 3 == 2:
        return "is B : access Cell := L; begin B.Value := B.Value + %d;" % i
    observed = "declare C : access constant Cell := L; begin while C /= null loop S := (S + C.Value) mod 1000; C := C.Next; end loop; end;"
    return "is S : Integer; begin %s L.Value := S;" % observed


def lists_of_cells(count):
    """A package of so many procedures over lists of cells, and a main procedure that calls each of them."""
    numbers = range(1, count + 1)
    lines = ["with Ada.Unchecked_Deallocation;", "package Work is", "type Cell; type List is access Cell;"]
    lines += ["type Cell is record Value : Integer; Next : List; end record;"]
    lines += ["procedure Free is new Ada.Unchecked_Deallocation (Cell, List);"]
    lines += ["procedure P%d (L : in out List);" % i for i in numbers]
    lines += ["end Work;", "package body Work is"]
    lines += ["procedure P%d (L : in out List) %s end P%d;" % (i, body_of(i), i) for i in numbers]
    lines += ["end Work;", "with Work; use Work; with Ada.Text_IO; use Ada.Text_IO;", "procedure Main is L : List;", "begin"]
    lines += ["P%d (L);" % i for i in numbers]
    lines += ["Put_Line (Integer'Image (L.Value));"]
    lines += ["declare Old : List; begin while L /= null loop Old := L; L := Old.Next; Free (Old); end loop; end;", "end Main;"]
    return "\n".join(lines) + "\n"


def cases():
    """Each source with its name, and how `check` has to end: the status, the lines on both outputs together, and the code
    of the first of them, where it has one."""
    yield "form_accepted", form(moved_on), 0, 1, None
    yield "form_reports", form(moved_again), 1, STATEMENTS - 1, "O4"
    yield "token_kinds", token_kinds(), 2, 1, "P3"
    yield "assignments_16000", assignments(16_000), 0, 1, None
    yield "assignments_160000", assignments(160_000), 2, 1, "G1"
    yield "deep_parentheses", deep_parentheses(), 0, 1, None
    yield "long_chains", long_chains(), 0, 1, None
    yield "deep_blocks", deep_blocks(), 0, 1, None
    yield "open_parentheses", open_parentheses(), 2, 1, "P2"
    yield "one_region", one_region(), 2, 1, "G1"
    yield "hiding_blocks", hiding_blocks(), 2, 1, "G1"
    yield "packages", packages(), 0, 1, None
    yield "second_bodies", second_bodies(), 2, 1, "N2"
    yield "files", files(), 2, 1, "G1"
    yield "type_chain", type_chain(), 0, 1, None
    yield "reversed_chain", reversed_chain(), 0, 1, None
    yield "case_choices", case_choices(), 0, 1, None
    yield "array_aggregate", array_aggregate(), 0, 1, None
    yield "record_aggregate", record_aggregate(), 0, 1, None
    yield "selected_components", selected_components(), 0, 1, None
    yield "nine_of_components", named_of_components(18_000, ["C%d" % i for i in range(9)]), 2, 1, "K4"
    yield "one_of_components", named_of_components(90_000, ["C59999"]), 2, 1, "K4"
    yield "value_of_many", value_of_many(), 2, 1, "G1"
    yield "types_in_ring", types_in_ring(), 2, 1, "K1"
    yield "static_chains", static_chains(), 0, 1, None
    yield "operator_chains", operator_chains(), 0, 1, None
    yield "most_facts", most_facts(), 1, 512, "O4"
    yield "moves_of_parts", moves_of_parts(), 1, 99_999, "O4"
    yield "branches_in_loop", branches_in_loop(), 1, 60, "O4"
    yield "conditionals_in_row", conditionals_in_row(), 0, 1, None
    yield "straight_line", straight_line(), 0, 1, None
    yield "moves_of_many", moves_of_many(), 0, 1, None
    yield "reads_of_many", reads_of_many(), 0, 1, None
    yield "calls_of_many", calls_of_many(), 0, 1, None
    yield "names_in_use", names_in_use(), 0, 1, None
    yield "call_cycle", call_cycle(), 0, 1, None
    yield "lists_of_cells_1000", lists_of_cells(1_000), 0, 1, None
    yield "lists_of_cells_10000", lists_of_cells(10_000), 0, 1, None


def measured(paths, status, lines, code):
    """Seconds and MiB of one run on these files, which has to end as it should."""
    path = paths[0]
    times = path.with_suffix(".time")
    command = ["/usr/bin/time", "-v", "-o", str(times), str(TOP / "spark"), "check"]
    command += [path.name for path in paths]
    run = subprocess.run(command, cwd=path.parent, stdin=subprocess.DEVNULL, capture_output=True)
    written = (run.stdout + run.stderr).count(b"\n")
    if (run.returncode, written) != (status, lines):
        sys.exit("%s: status %d and %d lines in place of %d and %d" % (path.name, run.returncode, written, status, lines))
    first = run.stderr.decode().partition("\n")[0]
    if code and (": %s " % code) not in first:
        sys.exit("%s: %r in place of %s" % (path.name, first, code))
    values = dict(line.strip().rsplit(": ", 1) for line in times.read_text().splitlines() if ": " in line)
    clock = values["Elapsed (wall clock) time (h:mm:ss or m:ss)"].split(":")
    seconds = sum(float(part) * 60**place for place, part in enumerate(reversed(clock)))
    return seconds, int(values["Maximum resident set size (kbytes)"]) / 1024


def program():
    """The program itself, which the script `spark` runs."""
    built = TOP / "crates" / "spark" / "out" / "spark"
    return built if built.is_file() else TOP / "spark"


def steps_carried(paths):
    """How many states were carried along successors of points: how often the one function that does so was called."""
    profile = paths[0].with_suffix(".calls")
    command = ["valgrind", "--tool=callgrind", "--callgrind-out-file=%s" % profile, str(program()), "check"]
    subprocess.run(command + [path.name for path in paths], cwd=paths[0].parent, capture_output=True, check=False)
    numbers, calls, wanted = set(), 0, False
    for line in profile.read_text().splitlines():
        called = re.match(r"c?fn=(\(\d+\))(?: (.*))?", line)
        if called:
            number, name = called.groups()
            if name and name.startswith("path_facts::worklist::carry"):
                numbers.add(number)
            wanted = line.startswith("cfn=") and number in numbers
        elif wanted and line.startswith("calls="):
            calls += int(line[6:].split()[0])
    return calls


# ---- runs


def cells_again_and_again():
    """A hundred times a list of 1,000 cells is made and freed."""
    lines = ["with Ada.Unchecked_Deallocation;", "procedure Main is", "type Cell;", "type List is access Cell;"]
    lines += ["type Cell is record Value : Integer; Next : List; end record;"]
    lines += ["procedure Free is new Ada.Unchecked_Deallocation (Cell, List);", "L, Old : List;", "begin"]
    lines += ["for Round in 1 .. 100 loop", "for I in 1 .. 1000 loop L := new Cell'(I, L); end loop;"]
    lines += ["while L /= null loop Old := L; L := Old.Next; Free (Old); end loop;", "end loop;", "end Main;"]
    return "\n".join(lines) + "\n"


def with_output(declarations, statements):
    """A main procedure that reads and writes."""
    lines = ["with Ada.Text_IO; use Ada.Text_IO; with Ada.Integer_Text_IO; use Ada.Integer_Text_IO;", "procedure Main is"]
    return "\n".join(lines + declarations + ["begin"] + statements + ["end Main;"]) + "\n"


def deep_recursion():
    """A function that calls itself 1,000,000 deep."""
    lines = ["package Sums is", "function Sum (N : Integer) return Integer;", "end Sums;", "package body Sums is"]
    lines += ["function Sum (N : Integer) return Integer is begin if N = 0 then return 0; end if;"]
    lines += ["return (N + Sum (N - 1)) mod 1000; end Sum;", "end Sums;", "with Sums; use Sums;"]
    return "\n".join(lines) + "\n" + with_output([], ["Put_Line (Integer'Image (Sum (1_000_000)));"])


def much_input():
    """All numbers of the input are read."""
    read = "while not End_Of_File loop Get (N); S := (S + N) mod 1000; end loop;"
    return with_output(["N : Integer; S : Integer := 0;"], [read, "Put_Line (Integer'Image (S));"])


def numbers_of(size):
    """Numbers in lines, so many bytes of them."""
    lines = "".join("%d\n" % (10_000 + i % 90_000) for i in range(size // 6))
    return lines + "9" * (size - len(lines) - 1) + "\n"


def much_output():
    """1,048,576 lines of 64 bytes are written."""
    return with_output([], ["for I in 1 .. 1_048_576 loop Put_Line (\"%s\"); end loop;" % ("0123456" * 9)])


def lists_in_lua(count):
    """The work of `lists_of_cells` in Lua."""
    lines = []
    for i in range(1, count + 1):
        if i % 3 == 1:
            lines.append("function P%d(l) return {value = %d, next = l} end" % (i, i))
        elif i % 3 == 2:
            lines.append("function P%d(l) local b = l; b.value = b.value + %d; return l end" % (i, i))
        else:
            observed = "do local c = l; while c ~= nil do s = (s + c.value) % 1000; c = c.next end end"
            lines.append("function P%d(l) local s = 0; %s; l.value = s; return l end" % (i, observed))
    lines += ["local l"] + ["l = P%d(l)" % i for i in range(1, count + 1)] + ["print(' ' .. l.value)"]
    lines += ["do local old; while l ~= nil do old = l; l = old.next; old.next = nil end end"]
    return "\n".join(lines) + "\n"


def cells_in_lua():
    """The work of `cells_again_and_again` in Lua."""
    lines = ["local l, old", "for round = 1, 100 do", "for i = 1, 1000 do l = {value = i, next = l} end"]
    lines += ["while l ~= nil do old = l; l = old.next; old = nil end", "end"]
    return "\n".join(lines) + "\n"


def runs():
    """Each program that is run, with its name, its input, the steps of its run, the bytes that it writes, and the same work
    in Lua, where that is compared."""
    yield "lists_of_cells_10000", lists_of_cells(10_000), "", 16_731_674, 7, lists_in_lua(10_000)
    yield "cells_again_and_again", cells_again_and_again(), "", 600_407, 0, cells_in_lua()
    yield "deep_recursion", deep_recursion(), "", 4_000_006, 3, None
    yield "much_input", much_input(), numbers_of(16 * 1_048_576), 8_388_614, 5, None
    yield "much_output", much_output(), "", 2_097_155, 64 * 1_048_576, None


def processor_seconds(command, folder, status, written):
    """Processor seconds and MiB of one run of a command that reads the file `input`, which has to end as it should."""
    timed = ["/usr/bin/time", "-q", "-o", "times", "-f", "%U %S %M"] + command
    with open(folder / "input", "rb") as reads, open(folder / "output", "wb") as writes:
        run = subprocess.run(timed, cwd=folder, stdin=reads, stdout=writes, stderr=subprocess.DEVNULL, check=False)
    size = (folder / "output").stat().st_size
    if run.returncode != status or written not in (size, None):
        sys.exit("%s: status %d and %d bytes in place of %d and %d" % (command, run.returncode, size, status, written or size))
    user, system, most = (folder / "times").read_text().split()
    return float(user) + float(system), int(most) / 1024


def beside(folder, lua):
    """The same work by others: who, the command, and the one that only reads the text, where it is read before it runs."""
    if lua and shutil.which("lua5.4"):
        (folder / "main.lua").write_text(lua)
        yield "Lua 5.4", ["lua5.4", "main.lua"], ["lua5.4", "-e", "assert(loadfile('main.lua'))"]
    if lua and shutil.which("gnatmake"):
        subprocess.run(["gnatchop", "-w", "-q", "main_all.ada"], cwd=folder, check=True)
        for level in ("-O0", "-O2"):
            command = ["gnatmake", "-q", "-f", level, "main.adb", "-o", "main%s" % level]
            subprocess.run(command, cwd=folder, check=True, capture_output=True)
            yield "GNAT %s" % level, ["./main%s" % level], None


def run_row(folder, by, steps, written, command, readings):
    """The least of five runs, each after those of commands that make no step or one: only read the text, or get ready for
    the first step too. Each command has its status. The rate is that of what is left after the last of them."""
    least, whole, most = [float("inf")] * len(readings), float("inf"), 0.0
    for _ in range(5):
        for i, (reading, status) in enumerate(readings):
            least[i] = min(least[i], processor_seconds(reading, folder, status, None)[0])
        seconds, mib = processor_seconds(command, folder, 0, written)
        whole, most = min(whole, seconds), max(most, mib)
    rate = steps / 1_000_000 / max(whole - (least or [0.0])[-1], 0.001)
    parts = " | ".join(["%.2f" % seconds for seconds in least] + ["-"] * (2 - len(least)))
    print("| %s | %s | %d | %.2f | %s | %.1f | %.0f |" % (folder.name, by, steps, whole, parts, rate, most), flush=True)


def bench_runs(folder):
    """A row for each run, by `spark` and by what is beside it."""
    subprocess.run([str(TOP / "spark")], stdin=subprocess.DEVNULL, capture_output=True)
    print("| program | by | steps | seconds | of them reading | before the first step | million steps a second | MiB |")
    print("|---|---|---|---|---|---|---|---|")
    for name, text, given, steps, written, lua in runs():
        here = folder / name
        here.mkdir(exist_ok=True)
        (here / "main_all.ada").write_text(text)
        (here / "input").write_text(given)
        checked = [str(program()), "check", "main_all.ada"]
        begun, executed = [[str(program()), "run", "--steps=%d" % made, "main_all.ada"] for made in (1, steps)]
        run_row(here, "spark run", steps, written, executed, [(checked, 0), (begun, 4)])
        for by, command, before in beside(here, lua):
            run_row(here, by, steps, written, command, [(before, 0)] * 2 if before else [])


# ---- checks


def bench(folder, counts_steps):
    # builds what there is to build, outside the times
    subprocess.run([str(TOP / "spark")], stdin=subprocess.DEVNULL, capture_output=True)
    print("| source | bytes | status | lines | seconds | MiB |" + " steps |" * counts_steps)
    print("|---|---|---|---|---|---|" + "---|" * counts_steps)
    for name, text, status, lines, code in cases():
        texts = [text] if isinstance(text, str) else text
        paths = [folder / ("%s_%d.adb" % (name, i)) for i in range(len(texts))]
        for path, text in zip(paths, texts):
            path.write_bytes(text.encode("latin-1"))
        seconds, mib = measured(paths, status, lines, code)
        size = sum(len(text) for text in texts)
        row = "| %s | %d | %d | %d | %.2f | %.0f |" % (name, size, status, lines, seconds, mib)
        if counts_steps:
            row += " %s |" % (steps_carried(paths) if name in FACTS else "-")
        print(row, flush=True)


def main():
    words = sys.argv[1:]
    counts_steps, are_runs = words[:1] == ["--steps"], words[:1] == ["--runs"]
    words = words[counts_steps or are_runs :]
    work = bench_runs if are_runs else lambda folder: bench(folder, counts_steps)
    if words:
        folder = pathlib.Path(words[0])
        folder.mkdir(parents=True, exist_ok=True)
        work(folder.resolve())
    else:
        with tempfile.TemporaryDirectory() as folder:
            work(pathlib.Path(folder))


if __name__ == "__main__":
    main()
