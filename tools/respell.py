#!/usr/bin/env python3
"""Gives the repository's own definitions and lemmas today's spelling, after port.py: tools/respell.py, once, at the top.

Words that specs/ and proofs/ define are in snake case; types and modules keep their capitals. In specs/, and at record fields, a dash
becomes an underscore; elsewhere a dash joins the names of a lemma and stays. The must-fail edits follow. Types of plain data derive
Clone and Copy, as each type was copied before; each root file asks for the tactics.
"""

import glob
import re
import sys

HEAD = re.compile(r"^( *)(?:(?:abbrev|unfoldable|pub) )*([^\s(){}\[\].,;:]+) :(?= |$)")
# lemmas that stand beside a word whose new spelling they had
MOVED = {"row_word": "row_word_is", "seen_as": "seen_as_is"}
STOP = r"\s(){}\[\].,;:\"`"


def files(*patterns):
    return sorted(p for pattern in patterns for p in glob.glob(pattern, recursive=True))


def read(path):
    with open(path, encoding="utf-8") as f:
        return f.read()


def snake(name):
    return re.sub(r"([a-z0-9])([A-Z])", lambda m: m[1] + "_" + m[2].lower(), name)


def defined(path):
    """The words that a file defines, each with whether it is a record's field."""
    fields = None
    for line in read(path).splitlines():
        indent = len(line) - len(line.lstrip())
        if re.match(r" *(pub )?record ", line):
            fields = indent
        elif fields is not None and line.strip() and indent <= fields:
            fields = None
        m = HEAD.match(line)
        if m:
            yield m[2], fields is not None


def renamed():
    names = {}
    taken = set()
    for path in files("crates/*/specs/**/*.antt", "crates/*/proofs/**/*.antt"):
        walk = path.endswith("/Proof.antt")
        for name, field in defined(path):
            taken.add(name)
            if not name[0].islower() or walk and "-" in name:
                continue
            new = snake(name)
            if "/specs/" in path or field:
                new = new.replace("-", "_")
            if new != name:
                names[name] = new
    return names, taken


def foreign():
    """Words that files import from the kit, and so are none of ours."""
    words = set()
    for path in files("crates/*/specs/**/*.antt", "crates/*/proofs/**/*.antt", "crates/*/src/**/*.rt"):
        for names in re.findall(r"^(?:ghost )?use (?!Rattle\.(?!std|core)\w+\.(?:specs|proofs))[\w.◌]+\.\{([^}]*)\}", read(path), re.M):
            words.update(w.split(" as ")[0].strip() for w in names.split(","))
    return words


def main():
    names, taken = renamed()
    kit = foreign()
    for name in sorted(names):
        if name in kit:
            print("kept, a word of the kit:", name)
            del names[name]
        elif names[name] in kit or names[name] in taken and names[name] not in MOVED:
            print("look, two names fall together:", name, names[name])
    names |= MOVED
    pattern = re.compile(f"(?<![^{STOP}])(" + "|".join(re.escape(n) for n in sorted(names, key=len, reverse=True)) + f")(?![^{STOP}])")
    for path in files("crates/*/specs/**/*.antt", "crates/*/proofs/**/*.antt", "crates/*/src/**/*.rt", "crates/*/must-fail/*.edit"):
        old = read(path)
        new = pattern.sub(lambda m: names[m[1]], old)
        if path.endswith(".rt"):
            new = new.replace("#[derive(Drop)]", "#[derive(Clone, Copy)]")
            if re.search(r"/src/(lib|main)\.rt$", path) and "#![tactic(auto)]" not in new:
                lines = new.split("\n")
                at = next(i for i, l in enumerate(lines) if not l.startswith("//"))
                new = "\n".join(lines[:at] + ["#![tactic(auto)]", ""] + lines[at:])
        if new != old:
            with open(path, "w", encoding="utf-8") as f:
                f.write(new)
    print(len(names), "names respelled")


if __name__ == "__main__":
    sys.exit(main())
