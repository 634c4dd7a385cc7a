#!/usr/bin/env python3
"""Compares `spark check` with the grammar of docs/LANGUAGE.md, on random texts.

    python3 tools/grammar_fuzz.py [--count N] [--seed N] [--program PATH]

The grammar is read from the page itself, and a recognizer for it is made here (Earley's, which tells after each token
whether the tokens so far are a viable prefix). Texts are random sources of the grammar, and such sources with tokens left
out, doubled, exchanged, put in or cut off. For each text the refused token is compared, with its code and position, with
what `spark` answers. A text that is a source may get any answer but P1 and P3. Limits of nesting and of operators aren't
met. The program ends with 1 at a difference, and shows the text.
"""
import argparse
import pathlib
import random
import re
import subprocess
import sys
import tempfile

TOP = pathlib.Path(__file__).resolve().parent.parent
PAGE = TOP / "docs" / "LANGUAGE.md"
FIXED = {"SPARK_Mode": ("SPARK_Mode", "spark_mode", "Spark_MODE"), "On": ("On", "ON", "on")}
NAMES = ("A", "B", "Cell", "List", "X_1", "Onward")
NUMBERS = ("0", "7", "1_000")
STRINGS = ('""', '"a"', '"it is ""new"""')


# ---- the page


def page_parts():
    """The productions of the section "Grammar", the reserved words, and the words that are P3."""
    text = PAGE.read_text()
    section = text[text.index("\n## Grammar\n") :]
    block = section[section.index("```\n") + 4 :]
    block = block[: block.index("```")]
    lines = [re.sub(r"\s+\([\d., ]+\)\s*$", "", line) for line in block.splitlines()]
    reserved = text[text.index("\n## Reserved words\n") :].split("\n\n")[1].split()
    left_out = section[section.index("\nabort abstract accept aliased") :].split("\n\n")[0].split()
    return "\n".join(lines), reserved, left_out


def symbols_of(text):
    return re.findall(r'"(?:[^"]+)"|[A-Za-z_]+|[={}\[\]()|]', text)


class Grammar:
    """Productions as lists of symbols: a terminal is a string in quotes or the name of a class of tokens, everything else a production."""

    CLASSES = {"id", "number", "string", "EndOfFile", "SPARK_Mode", "On"}

    def __init__(self, text):
        self.rules = {}
        self.made = 0
        heads = re.split(r"(?m)^(\w+)\s*=", text)[1:]
        for name, body in zip(heads[::2], heads[1::2]):
            self.left = symbols_of(body)
            self.rules[name] = self.choice(end=None)
        self.empty = self.nullable()

    def fresh(self, alternatives):
        self.made += 1
        name = "%%%d" % self.made
        self.rules[name] = alternatives
        return name

    def choice(self, end):
        alternatives, row = [], []
        while self.left and self.left[0] != end:
            word = self.left.pop(0)
            if word == "|":
                alternatives.append(row)
                row = []
            elif word == "(":
                row.append(self.fresh(self.closed(")")))
            elif word == "[":
                row.append(self.fresh([[]] + self.closed("]")))
            elif word == "{":
                name = self.fresh([])
                self.rules[name] = [[]] + [inner + [name] for inner in self.closed("}")]
                row.append(name)
            else:
                row.append(word)
        return alternatives + [row]

    def closed(self, end):
        found = self.choice(end)
        self.left.pop(0)
        return found

    def is_terminal(self, symbol):
        return symbol[0] == '"' or symbol in self.CLASSES

    def nullable(self):
        empty, grown = set(), True
        while grown:
            grown = False
            for name, alternatives in self.rules.items():
                if name not in empty and any(all(s in empty for s in row) for row in alternatives):
                    empty.add(name)
                    grown = True
        return empty


# ---- the recognizer


def fits(terminal, token):
    kind, text = token
    if terminal[0] == '"':
        return kind == "word" and terminal[1:-1] == text.lower()
    if terminal in FIXED:
        return kind == "id" and text.lower() == terminal.lower()
    return kind == terminal


def closure(grammar, sets, items):
    """All items that follow, where an item is a production, one of its alternatives, the place in it, and where it began."""
    here = len(sets)
    found, work = set(items), list(items)
    while work:
        name, row, at, begun = work.pop()
        body = grammar.rules[name][row]
        if at == len(body):
            parents = sets[begun] if begun < here else found
            new = [
                (n, r, a + 1, b) for n, r, a, b in list(parents) if a < len(grammar.rules[n][r]) and grammar.rules[n][r][a] == name
            ]
        elif grammar.is_terminal(body[at]):
            continue
        else:
            new = [(body[at], r, 0, here) for r in range(len(grammar.rules[body[at]]))]
            if body[at] in grammar.empty:
                new.append((name, row, at + 1, begun))
        for item in new:
            if item not in found:
                found.add(item)
                work.append(item)
    return found


def refused(grammar, tokens):
    """The number of the first token that makes no viable prefix, or None."""
    sets = [closure(grammar, [], [("source", r, 0, 0) for r in range(len(grammar.rules["source"]))])]
    for number, token in enumerate(tokens):
        moved = []
        for name, row, at, begun in sets[-1]:
            body = grammar.rules[name][row]
            if at < len(body) and grammar.is_terminal(body[at]) and fits(body[at], token):
                moved.append((name, row, at + 1, begun))
        if not moved:
            return number
        sets.append(closure(grammar, sets, moved))
    return None


# ---- random texts


def random_source(grammar, rng, symbol, depth, tokens):
    """Appends the tokens of a random derivation. Deep inside, the shortest alternatives are taken."""
    if symbol == "EndOfFile":
        return
    if symbol[0] == '"':
        tokens.append(("word", symbol[1:-1]))
    elif symbol in FIXED:
        tokens.append(("id", rng.choice(FIXED[symbol])))
    elif symbol == "id":
        tokens.append(("id", rng.choice(NAMES)))
    elif symbol == "number":
        tokens.append(("number", rng.choice(NUMBERS)))
    elif symbol == "string":
        tokens.append(("string", rng.choice(STRINGS)))
    else:
        rows = grammar.rules[symbol]
        if depth <= 0 or len(tokens) > 120:
            least = min(grammar.least[symbol])
            rows = [row for row, size in zip(rows, grammar.least[symbol]) if size == least]
        for part in rng.choice(rows):
            random_source(grammar, rng, part, depth - 1, tokens)


def least_sizes(grammar):
    """For each alternative how many tokens it takes at least."""
    size = {name: 10**6 for name in grammar.rules}

    def of(symbol):
        return 1 if grammar.is_terminal(symbol) else size[symbol]

    grown = True
    while grown:
        grown = False
        for name, rows in grammar.rules.items():
            new = min(sum(of(s) for s in row) for row in rows)
            if new < size[name]:
                size[name] = new
                grown = True
    return {name: [sum(of(s) for s in row) for row in rows] for name, rows in grammar.rules.items()}


def changed(rng, tokens, all_tokens):
    tokens = list(tokens)
    for _ in range(rng.choice((0, 1, 1, 1, 2, 3))):
        at = rng.randrange(len(tokens) + 1)
        way = rng.randrange(6)
        if way == 0:
            del tokens[at : at + 1]
        elif way == 1:
            tokens.insert(at, rng.choice(all_tokens))
        elif way == 2:
            tokens[at : at + 1] = [rng.choice(all_tokens)]
        elif way == 3:
            tokens[at:at] = tokens[at : at + rng.randrange(1, 4)]
        elif way == 4:
            tokens[at : at + 2] = tokens[at : at + 2][::-1]
        else:
            tokens = tokens[:at]
    return tokens


def written(rng, tokens):
    """The bytes of the tokens, over lines, with the position of each and of the end of the file."""
    text, line, column, positions = "", 1, 1, []
    for kind, word in tokens:
        if kind == "word" and word.isalpha():
            word = rng.choice((word, word, word.upper(), word.capitalize()))
        positions.append((line, column))
        gap = rng.choice((" ", " ", " ", "\n", "  ", " -- ; x\n"))
        text += word + gap
        line, column = (line + 1, 1) if gap.endswith("\n") else (line, column + len(word + gap))
    positions.append((line, column))
    return text, positions


# ---- the comparison


def answer(program, folder, text):
    (folder / "t.adb").write_text(text)
    run = subprocess.run([program, "check", "t.adb"], cwd=folder, stdin=subprocess.DEVNULL, capture_output=True, text=True)
    return run.returncode, run.stdout + run.stderr


def main():
    words = argparse.ArgumentParser()
    words.add_argument("--count", type=int, default=2000)
    words.add_argument("--seed", type=int, default=1)
    words.add_argument("--program", default=str(TOP / "spark"))
    given = words.parse_args()
    text, reserved, left_out = page_parts()
    grammar = Grammar(text)
    grammar.least = least_sizes(grammar)
    assert len(reserved) == 73 and len(left_out) == 30, (len(reserved), len(left_out))
    delimiters = "& ' ( ) * + , - . / : ; < = > | => .. := /= >= <=".split()
    all_tokens = [("word", w) for w in reserved + delimiters * 3]
    all_tokens += [("id", n) for n in NAMES + FIXED["On"]] * 3 + [("number", n) for n in NUMBERS] + [("string", s) for s in STRINGS]
    rng, counts = random.Random(given.seed), {"source": 0, "P1": 0, "P3": 0}
    with tempfile.TemporaryDirectory() as folder:
        for _ in range(given.count):
            tokens = []
            random_source(grammar, rng, "source", rng.randrange(8, 40), tokens)
            tokens = changed(rng, tokens, all_tokens)
            source, positions = written(rng, tokens)
            at = refused(grammar, tokens + [("EndOfFile", "")])
            status, said = answer(given.program, pathlib.Path(folder), source)
            if at is None:
                counts["source"] += 1
                well = status in (0, 1, 2) and not re.search(r" P[13] ", said)
            else:
                word = tokens[at][1].lower() if at < len(tokens) and tokens[at][0] == "word" else ""
                code = "P3 construct left out" if word in left_out else "P1 syntax"
                counts[code[:2]] += 1
                well = (status, said) == (2, "t.adb:%d:%d: %s\n" % (*positions[at], code))
            if not well:
                print("a difference: token %s, and the program says %d %r, of\n%s" % (at, status, said, source))
                return 1
    print("%(source)d sources, %(P1)d texts of P1 and %(P3)d of P3: no difference" % counts)
    return 0


if __name__ == "__main__":
    sys.exit(main())
