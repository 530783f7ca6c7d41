#!/usr/bin/env python3
"""Turns each Proof.antt that lists answers to goals (tie.spec ..) into Invariants.antt and Answers.antt.

usage: tools/answers.py NAMES [CRATE ..]   NAMES is the folder that 'rt names NAMES' wrote

A place of the code and a goal get today's names. Answers that only search are left out, since the check searches by itself.
What it cannot turn is left as it was read, under its new name, and 'rt check' says so.
"""

import glob
import json
import os
import re
import subprocess
import sys

STOP = r"\s(){}\[\],;"


def norm(name):
    return re.sub(r"^overflow-", "", name.replace("_", "-")).replace("slice-bounds", "part")


def blocks(text):
    found = []
    for part in re.split(r"\n\s*\n", text.strip("\n")):
        if found and part[:1] in " \t":
            found[-1] += "\n\n" + part
        else:
            found.append(part)
    return found


def clauses(crate):
    """The names of each function's clauses, where it has two or more of a kind: (path, 'requires') to a list."""
    found = {}
    for path in glob.glob(f"crates/{crate}/src/**/*.rt", recursive=True):
        inner = os.path.relpath(path, f"crates/{crate}/src")[:-3].split(os.sep)
        inner = [it for it in inner if it not in ("lib", "main", "mod")]
        with open(path, encoding="utf-8") as it:
            source = it.read()
        for m in re.finditer(r"\bfn (\w+)\(", source):
            depth, end = 0, m.end()
            while end < len(source):
                # the body begins at a line that is a lone brace, or ends the signature's line
                if source.startswith("\n{\n", end) or source.startswith(" {\n", end) and "\n    requires" not in source[m.end():end] and "\n    ensures" not in source[m.end():end] and source[:end].rstrip().endswith(")"):
                    break
                if source.startswith("\nfn ", end) or source.startswith("\npub fn ", end):
                    break
                end += 1
            head = source[m.end() : end]
            for kind in ("requires", "ensures"):
                names = re.findall(rf"^ +{kind} (?:(\w+) )?\{{", head, re.M)
                if len(names) > 1:
                    found["::".join([crate, *inner, m[1]]), kind] = names
    return found


CLAUSES = {}


def items(text):
    """The parts of a tuple that is the whole text, or None."""
    text = text.strip()
    if not (text.startswith("(") and text.endswith(")")):
        return None
    depth, parts, begin = 0, [], 1
    for i, ch in enumerate(text):
        if ch in "([{":
            depth += 1
        elif ch in ")]}":
            depth -= 1
            if depth == 0 and i < len(text) - 1:
                return None
        if depth == 1 and ch == "," or depth == 0:
            parts.append(text[begin:i].strip())
            begin = i + 1
    return [p for p in parts if p]


def as_record(body, names):
    """A tuple at the end of an answer, as a record by the clauses' names."""
    at = 0
    for m in re.finditer(r" in(?=[ \n])", body):
        if body[: m.start()].count("(") == body[: m.start()].count(")"):
            at = m.end()
    parts = items(body[at:])
    if not parts or len(parts) != len(names):
        return body
    return body[:at] + "\n    record { " + "; ".join(f"{n} = {p}" for n, p in zip(names, parts)) + " }\n"


class Function:
    def __init__(self, entry, source, path):
        self.source = source
        self.path = path
        self.needs = [(a, b) for a, b in entry["needs"]]
        self.asked = dict(zip([b for a, b in entry["needs"]], [it for it in entry["asked_at"]]))
        self.loops = entry["loops"]
        self.changed = entry["changed"]
        self.params = entry["params"]
        self.places = entry["places"]
        self.new_place = dict(zip([p[0] for p in entry["places"]], entry["places_by_name"]))
        self.parent = {p[0]: p[1] for p in entry["places"]}
        # what an arm binds, by the step and the path of the older form
        self.bound = {}
        for arm in entry["arms"]:
            for name, step, path in arm[2] if arm else []:
                if path:
                    self.bound.setdefault((norm(step), *path), f"{arm[0]}.{name}")
        for known in entry["typed"]:
            for name, step in known:
                self.bound.setdefault((norm(step), "given"), f"type_inv.{name}")
        self.args = {a.split(".")[-1]: b.split(".")[-1] for a, b in entry["args"] if a.startswith(".args ")}
        self.fields = {"well-formed": "well_formed"}
        self.callee = {}
        for name, parent, (old, new), callee, more in entry["places"]:
            if old:
                self.fields[norm(old)] = new
                if callee:
                    self.callee[new] = callee

    def named(self, path):
        """A path with the clauses by their names in place of their numbers."""
        for i, word in enumerate(path[:-1]):
            owner = self.path if i == 0 else self.callee.get(path[i - 1])
            names = CLAUSES.get((owner, word))
            if word in ("requires", "ensures") and names and path[i + 1].isdigit() and int(path[i + 1]) < len(names):
                return path[: i + 1] + [names[int(path[i + 1])]] + path[i + 2 :]
        return path

    def asks(self, goal):
        """The names of the clauses that a goal is about."""
        if goal.startswith("returns"):
            return CLAUSES.get((self.path, "ensures"))
        m = re.match(r"(\w+).*-requires", goal)
        if m:
            for callee in self.callee.values():
                if callee.split("::")[-1] == m[1]:
                    return CLAUSES.get((callee, "requires"))
        return None

    def goal(self, name):
        n = norm(name).replace("-init", "-init")
        for old, new in self.needs:
            if norm(old) == n:
                return new
        for old, new in self.needs:
            if norm(new) == n:
                return new
        return None

    def distance(self, place, to):
        """How many places lie between a place and one that it comes after; None where it does not."""
        n = 0
        while place is not None and norm(place) != norm(to):
            place = self.parent.get(place)
            n += 1
        return n if place is not None else None

    def is_for(self, loop):
        """Whether a loop is a `for`, which ends by itself."""
        step = "overflow_step-" + loop.removeprefix("loop-")
        return any(new == step for _, new in self.needs) or re.search(rf"'{loop}: for ", self.source) is not None

    def loop(self, name):
        for i, ((old, new), names) in enumerate(self.loops):
            if norm(old) == norm(name):
                return new, names, self.changed[i]
        return None


def turn(text, f, place, helpers):
    """The body of an answer, with the steps by their new names."""
    aliases = {"c": []}
    # `let at = c.before.before in` only names a place, and `let g = c.number.given in` what an arm binds
    pattern = re.compile(r"let ([\w'-]+) = ([\w'-]+)((?:\.before)*)((?:\.[\w'-]+\.(?:given|ensures)|\.requires)?) in[ \n]*")
    def worth(m):
        path = aliases[m[2]] + m[4].split(".")[1:]
        if not path or path[-1] == "given":
            return True
        owner = f.path if len(path) == 1 else f.callee.get(f.fields.get(norm(path[0]), path[0]))
        return (owner, path[-1]) in CLAUSES

    while True:
        m = next((m for m in pattern.finditer(text) if m[2] in aliases and worth(m)), None)
        if not m:
            break
        aliases[m[1]] = aliases[m[2]] + m[4].split(".")[1:]
        text = text[: m.start()] + text[m.end() :]
    names = "|".join(re.escape(a) for a in sorted(aliases, key=len, reverse=True))
    # an argument of a helper is a place
    for helper, at in helpers.items():
        def place_of(m):
            if helper in f.inlined:
                return m[1]
            n = f.distance(place, at) if place else None
            return m[1] + " c" + (".before" * n if n is not None else "?")
        text = re.sub(rf"(?<![^{STOP}])({re.escape(helper)}) (?:\((?:{names})(?:\.before)*\)|(?:{names})(?:\.before)*)(?![.\w'-])", place_of, text)

    def field(m):
        return resolved(aliases[m[1]] + m[2].split(".")[1:])

    def resolved(path):
        while path and path[0] == "before":
            path.pop(0)
        if not path:
            return "c"
        for n in range(len(path), 1, -1):
            known = f.bound.get((norm(path[0]), *path[1:n]))
            if known:
                return ".".join(["c", known, *path[n:]])
        if path[0] == "args" and len(path) > 1:
            path[1] = f.args.get(path[1], path[1])
        path[0] = f.fields.get(norm(path[0]), path[0])
        callee = f.callee.get(path[0])
        if len(path) > 2 and path[1] in ("new", "auto") and callee and callee in f.params:
            n, i = 0, 2
            while i < len(path) and path[i] == "1":
                n += 1
                i += 1
            if i < len(path) and path[i] == "0" and n < len(f.params[callee]):
                path[2 : i + 1] = [f.params[callee][n]]
        return "c." + ".".join(f.named(path))

    keep = re.compile(rf"(?<![^{STOP}])({names})((?:\.[^\s(){{}}\[\],;.]+)+)")

    def step(m):
        if re.fullmatch(r"(\.before)+", m[2]):
            return m[0] if m[1] == "c" else "c"
        return field(m)

    text = keep.sub(step, text)
    for alias, path in aliases.items():
        if alias != "c":
            whole = resolved(list(path))
            text = re.sub(rf"(?<![^{STOP}]){re.escape(alias)}(?![^{STOP}])", lambda m: whole, text)
    return text


def invariant(block, f):
    m = re.match(r"(?:abbrev |unfoldable |pub )*(invariant|decreases)-(\S+) : (\S+)\n((?:unfolding.*\n)?)\S+((?: \S+)*?) =", block)
    if not m:
        return None
    loop = f.loop(m[2])
    if not loop:
        return None
    new, names, changed = loop
    if m[1] == "decreases" and f.is_for(new):
        return ""
    binders = m[5].split()
    map_ = {}
    for i, b in enumerate(binders):
        if i < len(names):
            map_[b] = "l.initial." + names[i] if changed[i] else "l." + names[i]
        else:
            late = [n for n, c in zip(names, changed) if c]
            if i - len(names) < len(late):
                map_[b] = "l." + late[i - len(names)]
    map_.pop("_", None)
    body = block[m.end() :]
    hidden = []
    for bound in re.finditer(r"λ ((?:[\w'₀]+ ?)+)\.", body):
        depth, end = 0, bound.end()
        while end < len(body) and depth >= 0:
            depth += (body[end] in "([{") - (body[end] in ")]}")
            end += 1
        hidden.append((bound.start(), end, bound[1].split()))

    def word(w):
        if body[w.start() - 1 : w.start()] == "." or any(a <= w.start() < b and w[1] in names for a, b, names in hidden):
            return w[1]
        return map_.get(w[1], w[1])

    body = re.sub(r"(?<![^\s(){}\[\],;.])([^\s(){}\[\],;.]+)", word, body)
    head = f"{m[1]}-{new}"
    return f"abbrev pub {head} : goal.{head}\n{m[4]}{head} l ={body}"


def inlined(parts, f, helpers):
    """The helpers that stand at another place than some goal that cites them: name to type, opened words, parameters and body."""
    found = {}
    for p in parts:
        code = re.sub(r"^--.*\n", "", p, flags=re.M)
        for h, at in helpers.items():
            m = re.match(rf"(?:abbrev )?{re.escape(h)} : (?:\(c : tie\.[^)]*\)|tie\.[\w-]+(?: (?:invariant|decreases)-[\w-]+)*)(.*?)\n((?:unfolding.*\n)?){re.escape(h)} c(.*?) =(.*)$", code, re.S)
            if m:
                type_ = m[1].strip()
                found[h] = (at, type_[1:].strip() if type_.startswith("→") else type_, m[2].split()[1:], m[3].split(), m[4])
    cited = set()
    for p in parts:
        m = re.search(r"^([^\s:]+) : tie\.Need-(\S+)", p, re.M)
        goal = m and f.goal(m[2])
        for h, (at, *_) in found.items():
            if not re.search(rf"(?<![^{STOP}]){re.escape(h)}(?![^{STOP}])", p) or re.match(rf"(?:--.*\n)*(?:abbrev )?{re.escape(h)} :", p):
                continue
            if not goal or norm(f.asked[goal][0]) != norm(at):
                cited.add(h)
    # a helper that a written one cites is written too
    return {h: found[h] for h in found if cited}


def written(text, f, place, helpers):
    """The helpers that an answer cites, as lets before it, and the words that they open."""
    needs = set()
    more = [text]
    while more:
        t = more.pop()
        for h, (_, type_, _, _, body) in f.inlined.items():
            if h not in needs and re.search(rf"(?<![^{STOP}]){re.escape(h)}(?![^{STOP}])", t):
                needs.add(h)
                more += [body, type_]
    lets, opened = [], []
    for h, (at, type_, opens, params, body) in f.inlined.items():
        if h in needs:
            type_ = turn(type_, f, place, helpers)
            type_ = f"({type_})" if type_.startswith("let ") else type_
            value = turn(body, f, place, helpers).strip()
            value = f"λ {' '.join(params)}. {value}" if params else value
            lets.append(f"let {h} : {type_} = {value} in\n   ")
            opened += opens
    return lets, opened


def turn_file(path, entry, module, source, name):
    f = Function(entry, source, name)
    with open(path, encoding="utf-8") as it:
        text = it.read()
    parts = blocks(text)
    head = parts.pop(0)
    comment = "\n".join(l for l in head.splitlines() if l.startswith("--"))
    uses = [l for l in head.splitlines() if l.startswith("use ") and not re.search(r"\.(Statement\.\{statement\}|Tie as tie)$", l)]
    rest = [l for l in head.splitlines() if not l.startswith(("--", "use "))]
    if "\n".join(rest).strip():
        parts.insert(0, "\n".join(rest))
    helpers = {}
    for p in parts:
        for m in re.finditer(r"^(?:abbrev )?([\w'-]+) : \(?(?:c : )?tie\.((?:In|After|At|Then|Else|Joined|Start)[\w-]*)", p, re.M):
            helpers[m[1]] = m[2]
    f.inlined = inlined(parts, f, helpers)
    invariants, answers, unsure = [], [], []
    for p in parts:
        if any(re.match(rf"(?:--.*\n)*(?:abbrev )?{re.escape(h)} :", p) for h in f.inlined):
            continue
        code = re.sub(r"^--.*\n", "", p, flags=re.M)
        said = "".join(re.findall(r"^--.*\n", p, flags=re.M))
        if re.match(r"pub [\w'-]+ : \{M : Type 1\} → statement M", code):
            continue
        made = invariant(code, f)
        if made == "":
            continue
        if made:
            invariants.append(said + made)
            continue
        m = re.match(r"([^\s:]+) : tie\.Need-(\S+)(.*)\n((?:unfolding.*\n)?)\1((?: \S+)*?) =((?:.|\n)*)$", code)
        if m:
            goal = f.goal(m[2])
            body = m[6]
            if goal is None:
                unsure.append("-- no goal: " + code.replace("\n", "\n-- "))
                continue
            if re.fullmatch(r"\s*(search rules|omega arith|tt)\s*", body) and not m[4]:
                continue
            args = [a for a in m[5].split() if a not in ("κs",)]
            body = turn(body, f, next((p_[0] for p_ in f.places if p_[0] == f.asked[goal][0]), None), helpers)
            lets, opened = written(m[6], f, next((p_[0] for p_ in f.places if p_[0] == f.asked[goal][0]), None), helpers)
            body = (" ".join(["\n   ", *lets]) + (body if body.startswith("\n") else "\n    " + body.strip())) if lets else body
            unfolds = sorted({*m[4].split()[1:], *opened})
            unfolding = "unfolding " + " ".join(unfolds) + "\n" if unfolds else ""
            names = f.asks(goal)
            body = as_record(body, names) if names else body
            answers.append(f"{said}pub {goal} : goal.{goal}\n{unfolding}{goal} {' '.join(args)} ={body}")
            continue
        at = next((helpers[h] for h in helpers if re.match(rf"(?:abbrev )?{re.escape(h)} :", code)), None)
        if at:
            real = next((p_[0] for p_ in f.places if norm(p_[0]) == norm(at)), None)
            code = turn(code, f, real, {h: a for h, a in helpers.items() if not re.match(rf"(?:abbrev )?{re.escape(h)} :", code)})
            code = re.sub(r"tie\.((?:In|After|At|Then|Else|Joined|Start)[\w-]*)((?: (?:invariant|decreases)-[\w-]+)*)", lambda m: "goal." + (f.new_place[real] if real else m[1]), code)
        answers.append(said + code)
    answers += unsure
    folder = os.path.dirname(path)
    if invariants:
        with open(os.path.join(folder, "Invariants.antt"), "w", encoding="utf-8") as it:
            it.write("\n".join(uses + [f"use {module}.Given as goal", ""]) + "\n" + "\n\n".join(invariants) + "\n")
    if answers:
        with open(os.path.join(folder, "Answers.antt"), "w", encoding="utf-8") as it:
            it.write(comment + "\n" + "\n".join(uses + [f"use {module}.Goals as goal", ""]) + "\n" + "\n\n".join(answers) + "\n")
    os.remove(path)
    return len(answers)


def main(names, crates):
    for crate in os.listdir("crates"):
        CLAUSES.update(clauses(crate))
    for crate in crates or sorted(os.listdir("crates")):
        listed = f"{names}/crates/{crate}/names.json"
        if not os.path.exists(listed):
            continue
        with open(listed) as it:
            entries = json.load(it)
        source = ""
        for path in glob.glob(f"crates/{crate}/src/**/*.rt", recursive=True):
            with open(path, encoding="utf-8") as it:
                source += it.read()
        for path in sorted(glob.glob(f"crates/{crate}/proofs/**/Proof.antt", recursive=True)):
            inner = os.path.relpath(os.path.dirname(path), f"crates/{crate}/proofs").replace("/", ".")
            key = f"Rattle-{crate}-proofs.{inner}.Lts"
            with open(path, encoding="utf-8") as it:
                plain = "tie.close" in it.read()
            if key not in entries or not plain:
                print("by hand:", path, "" if plain else "(a walk)")
                continue
            turn_file(path, entries[key], f"Rattle.{crate}.proofs.{inner}", source, "::".join([crate, *inner.replace("+", "").split(".")]))


if __name__ == "__main__":
    main(sys.argv[1], sys.argv[2:])
