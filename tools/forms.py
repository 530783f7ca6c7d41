#!/usr/bin/env python3
"""Counts the places of docs/DESIGN-PASS.md in crates/*/src of the tree that it is run in: forms.py [flags|enums|names|loops|facts|params|lengths|proofs]."""
import collections
import glob
import re
import sys

FILES = sorted(glob.glob("crates/*/src/**/*.rt", recursive=True))


def source(name):
    with open(name) as file:
        return file.read()


def flags():
    """A field that says whether the value beside it counts."""
    return [f"{f}:{i}" for f in FILES for i, l in enumerate(source(f).split("\n"), 1) if re.match(r"\s*(pub )?good: bool", l)]


def enums():
    return [f"{f}: {n}" for f in FILES for n in re.findall(r"^(?:pub )?enum (\w+)", source(f), re.M)]


def names():
    """Functions whose name stands in more than one place, or ends in a digit."""
    found = collections.defaultdict(list)
    for f in FILES:
        for n in re.findall(r"^ *(?:pub )?(?:pub\(crate\) )?fn (\w+)", source(f), re.M):
            found[n].append(f)
    return [f"{n}: {' '.join(fs)}" for n, fs in sorted(found.items()) if len(fs) > 1 or n[-1].isdigit()]


def loops():
    """Each while, and each for over a range whose variable is an index into a slice or an array."""
    places = []
    for f in FILES:
        lines = source(f).split("\n")
        for i, line in enumerate(lines):
            loop = re.match(r"(\s*)(?:'\w+: )?for (\w+) in (.+) \{", line)
            if loop and ".." in loop.group(3) and "[" not in loop.group(3):
                body = []
                for l in lines[i + 1 :]:
                    if l.startswith(loop.group(1) + "}"):
                        break
                    body.append(l)
                inside = re.search(r"\[[^\]]*\b" + loop.group(2) + r"\b[^\]]*\]", "\n".join(body))
                places.append(f"{'index' if inside else 'range'} {f}:{i + 1}: {line.strip()}")
            elif re.match(r"\s*while ", line):
                places.append(f"while {f}:{i + 1}: {line.strip()}")
    return sorted(places)


def facts():
    """A conjunct of a requires that stands in three or more contracts, with how many."""
    count = collections.Counter()
    for f in FILES:
        for clause in re.findall(r"requires[^{]*\{(.*?)\}\n", source(f), re.S):
            count.update(re.sub(r"\s+", " ", x).strip().strip("()").strip() for x in clause.split(" × "))
    return [f"{n} {x}" for x, n in count.most_common() if n >= 3]


def signatures():
    for f in FILES:
        for name, inside in re.findall(r"fn (\w+)(?:<[^>]*>)?\(([^)]*)\)", source(f)):
            yield f, name, [re.sub(r"\s+", " ", p.strip()) for p in inside.split(",") if p.strip()]


def params():
    """Functions that take eight or more parameters."""
    return [f"{f}: {name} {len(ps)}" for f, name, ps in signatures() if len(ps) >= 8]


def lengths():
    """Functions that take a slice of numbers and a length (n, m or count) beside it."""
    return [f"{f}: {n}" for f, n, ps in signatures() if any("[u" in p for p in ps) and any(re.match(r"(n|m|count): usize", p) for p in ps)]


def proofs():
    answers = glob.glob("crates/*/proofs/**/Answers.antt", recursive=True)
    every = glob.glob("crates/*/proofs/**/*.antt", recursive=True)
    goals = sum(len(re.findall(r"^pub [^:]*: goal\.", source(f), re.M)) for f in answers)
    lines = sum(source(f).count("\n") for f in every)
    return [f"{len(every)} files, {lines} lines; {len(answers)} files of answers with {goals} answers"]


def main():
    kinds = [flags, enums, names, loops, facts, params, lengths, proofs]
    for kind in kinds:
        if len(sys.argv) > 1 and kind.__name__ not in sys.argv[1:]:
            continue
        found = kind()
        if len(sys.argv) > 1:
            print("\n".join(found))
        print(f"{kind.__name__}: {len(found)}" + ("" if kind is not loops else f" ({dict(collections.Counter(x.split()[0] for x in found))})"))


main()
