#!/usr/bin/env python3
"""Respells this repository's own names in clauses, specs/ and proofs/: facts and types in upper camel case, all else in snake case.

usage: python3 tools/respell.py [--dry]      at the top of the repository, once

It turns each name with a dash that this repository gave: definitions, lemmas, fields, constructors and local names. It leaves
names that a file imports from a library, and names that Rattle makes of the code: goals, steps, arms, invariants.
"""
import collections
import os
import re
import sys

NAME = r"[A-Za-z_][\w']*(?:-[\w']+)+"
TOKEN = re.compile(r"(?<![\w'+\-])(" + NAME + r")(?![\w'+\-])")
MADE = re.compile(r"^(invariant|decreases|ghost|ghosts)-")
USE = re.compile(r"(?:ghost )?use\s+([\w.'·-]+)\.\{([^}]*)\}", re.S)


def spelled(name):
    if name[0].isupper():
        return "".join(part[0].upper() + part[1:] for part in name.split("-"))
    return name.replace("-", "_")


def files(ending):
    for folder, dirs, names in os.walk("crates"):
        dirs[:] = sorted(d for d in dirs if d != "out")
        for n in sorted(names):
            if n.endswith(ending):
                yield os.path.join(folder, n)


def is_answers(path):
    """A file of one function's proof, as proofs/F/Answers.antt, and not a file of lemmas or definitions."""
    return "/proofs/" in path and os.path.basename(os.path.dirname(path)) != "proofs"


def imports(text):
    """The names that the file takes from a library or from what Rattle makes of a function."""
    kept, own = set(), set()
    for module, names in USE.findall(text):
        made = module.rsplit(".", 1)[-1] in ("Goals", "Given", "Tie") or ".specs.declared." in module
        crate = module.split(".")[1] if module.startswith("Rattle.") else ""
        library = crate not in CRATES
        for n in names.split(","):
            n = n.strip().split(" as ")[0].strip()
            if not n:
                continue
            (kept if made or library else own).add(n)
    return kept, own


CRATES = set(os.listdir("crates"))


def declared():
    """Every name with a dash that a specs/ file or a lemma file of proofs/ declares or binds, or a source file imports something as."""
    out = collections.defaultdict(set)
    for p in files(".antt"):
        if is_answers(p):
            continue
        text = open(p, encoding="utf-8").read()
        kept, own = imports(text)
        bare = re.sub(r"--.*", "", re.sub(r"^\s*(pub )?use .*$", "", text, flags=re.M))
        for m in TOKEN.finditer(bare):
            if m.group(1) not in kept:
                out[m.group(1)].add(p)
    for p in files(".rt"):
        for _, names in USE.findall(open(p, encoding="utf-8").read()):
            for n in re.findall(r" as (" + NAME + r")", names):
                out[n].add(p)
    return out


def turn_lemma_file(text, known):
    kept, own = imports(text)

    def sub(m):
        n = m.group(1)
        if n in kept and n not in own:
            return n
        return spelled(n) if n in known else n

    return TOKEN.sub(sub, text)


def turn_answers(text, known):
    kept, own = imports(text)
    goals = set(re.findall(r"goal\.(" + NAME + r")", text))

    def line(l):
        code, dash, note = l, "", ""
        m = re.search(r"(^|\s)--(\s|$)", l)
        if m:
            code, note = l[: m.start()], l[m.start() :]
        return PATHS.sub(path, code) + TOKEN.sub(lambda t: spelled(t.group(1)) if t.group(1) in known else t.group(1), note)

    def path(m):
        parts = m.group(0).split(".")
        head = parts[0]
        if head == "Rattle":
            # a path of a module or of an item of one
            made = "Goals" in parts or "Given" in parts or "Tie" in parts or "declared" in parts or parts[1] not in CRATES
            return m.group(0) if made else ".".join(spelled(x) if x in known else x for x in parts)
        if head == "goal":
            return m.group(0)
        out = []
        made = head in ("c", "w", "g", "l") or re.fullmatch(r"w\d*", head)
        for i, x in enumerate(parts):
            if "-" not in x or "+" in x or (i and x not in known):
                out.append(x)
            elif i == 0:
                keep = x in kept or x in goals or MADE.match(x)
                out.append(x if keep and x not in own else spelled(x))
            elif i == 1 and made or x.startswith("in-") and made or (x.endswith("-is") and made):
                out.append(x)
            elif made_field(parts, i, made):
                out.append(x)
            else:
                out.append(spelled(x))
        return ".".join(out)

    def made_field(parts, i, made):
        # c.STEP.new.x and the like are names of the code, which have no dash
        return made and parts[i - 1] in ("args", "new", "initial", "fn", "auto", "type_inv", "ranges")

    return "\n".join(line(l) for l in text.split("\n"))


PATHS = re.compile(r"(?<![\w'+\-.])[A-Za-z_][\w'+\-]*(?:\.[\w'+\-]+)*")


def turn_source(text, known):
    def line(l):
        if l.lstrip().startswith("//"):
            return l
        return TOKEN.sub(lambda m: spelled(m.group(1)) if m.group(1) in known else m.group(1), l)

    return "\n".join(line(l) for l in text.split("\n"))


def clashes(known):
    by_new = collections.defaultdict(set)
    for n in known:
        by_new[spelled(n)].add(n)
    for new, olds in sorted(by_new.items()):
        if len(olds) > 1:
            print(f"one name: {sorted(olds)} -> {new}")
    plain = re.compile(r"(?<![\w'\-])([A-Za-z_][\w']*)(?![\w'\-])")
    for p in list(files(".antt")):
        text = re.sub(r"--.*", "", open(p, encoding="utf-8").read())
        has = set(plain.findall(text))
        for n in sorted(set(t for t in TOKEN.findall(text) if t in known)):
            if spelled(n) in has:
                print(f"in {p}: {n} beside {spelled(n)}")
    for p in files(".rt"):
        text = open(p, encoding="utf-8").read()
        has = set(plain.findall(re.sub(r"//.*", "", text)))
        for n in sorted(set(t for t in TOKEN.findall(text) if t in known)):
            if spelled(n) in has:
                print(f"src {p}: {n} beside {spelled(n)}")


def main():
    dry = "--dry" in sys.argv
    known = declared()
    clashes(known)
    if dry:
        return
    for p in list(files(".antt")):
        text = open(p, encoding="utf-8").read()
        new = turn_answers(text, known) if is_answers(p) else turn_lemma_file(text, known)
        if new != text:
            open(p, "w", encoding="utf-8").write(new)
    for p in list(files(".rt")):
        text = open(p, encoding="utf-8").read()
        new = turn_source(text, known)
        if new != text:
            open(p, "w", encoding="utf-8").write(new)


main()
