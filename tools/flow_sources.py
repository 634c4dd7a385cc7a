#!/usr/bin/env python3
"""Writes the sources in data/ of flow_tests, machine_tests, leak_tests and run_code_tests as terms of the proofs.

    tools/flow_sources.py          writes proofs/Sources.antt of these crates
    tools/flow_sources.py --check  ends with 1 where they aren't what would be written
"""
import argparse
import re
import sys

import tree_terms

CRATES = tree_terms.TOP / "crates"
HEAD = """-- The resolved trees of the sources in data/.
--
-- tools/flow_sources.py makes this.
"""


class SourceLemmas(tree_terms.TypeLemmas):
    """The terms of the sources of a crate, with their imports."""

    def __init__(self, crate):
        self.crate = crate
        super().__init__()

    words = {
        ("flow_tests.proofs.ResolvedTrees" if module.startswith("type_tests") else module): words
        for module, words in tree_terms.TypeLemmas.words.items()
        if module != "type_tests.proofs.TypeRules"
    }

    def term(self, path):
        program = tree_terms.ResolvedTerms().program([self.units(path.name, 0)])
        lines = tree_terms.wrapped("%s = %s" % (path.stem, program))
        return ["", "abbrev pub %s : Program" % path.stem] + lines

    def text(self):
        lines = sum([self.term(path) for path in sorted((self.folder / "data").glob("*.adb"))], [])
        body = "\n".join(lines) + "\n"
        imports = self.imports(body)
        imports[0] = "use Rattle.std.specs.Prelude.{[], ◌∷◌}"
        imports = [re.sub(r"Trees\.\{", "Trees.{Program, ", line) if "resolved_tree.specs.Trees" in line else line for line in imports]
        return HEAD + "\n".join(imports) + "\n" + body


def main():
    options = argparse.ArgumentParser()
    options.add_argument("--check", action="store_true")
    check = options.parse_args().check
    for crate in "flow_tests", "machine_tests", "leak_tests", "run_code_tests":
        path, text = CRATES / crate / "proofs" / "Sources.antt", SourceLemmas(crate).text()
        if not check:
            path.write_text(text)
        elif not path.exists() or path.read_text() != text:
            return 1
    return 0


if __name__ == "__main__":
    sys.exit(main())
