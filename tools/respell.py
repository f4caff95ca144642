#!/usr/bin/env python3
"""Brings the names of this repository's own definitions and lemmas to today's spelling: words in snake case, a dash only between two names of definitions or functions.

Run once, at the top, after the toolchain's port.py. Definitions and locals of antt files in lower camel case become snake case (isAce: is_ace), in antt files, in clauses and imports of .rt files
and in the edits. A lemma's name is cut at its dashes: parts that together name a definition, a function or a word of the library stay joined to it by an underscore, two such names are joined by
a dash, any other part by an underscore. Fields of records are in snake case. Names that would fall together with another keep apart by "_lem". Functions of src/, strings, inputs and outputs keep their names.
Prints each name that changed."""
import collections, glob, re, sys

DEF = re.compile(r"^((?:(?:abbrev|unfoldable|pub|data|record|axiom|ruleset)\s+)*)([^\s:{}()]+)(\s+(?:[({].*)?)?:")
TOKEN = re.compile(r"(?:(?<=^)|(?<=[\s(){}\[\].,;:⌜⌝λ@!&|\"]))([^\s(){}\[\].,;:⌜⌝\"]+)", re.M)
WORDS = {"length", "take", "drop", "map", "append", "reverse", "sum", "set", "get_or", "replicate", "min", "max"}


def snake(name):
    s = re.sub(r"(?<=[a-z0-9])([A-Z])", lambda m: "_" + m.group(1).lower(), name)
    return s


def is_camel(name):
    return re.fullmatch(r"_?[a-z][A-Za-z0-9]*[A-Z][A-Za-z0-9]*'?", name) is not None


def antt_files():
    return sorted(glob.glob("crates/*/**/*.antt", recursive=True))


def read(f):
    return open(f, encoding="utf8").read()


def gather():
    defs, lemmas, goals, fields = set(), collections.defaultdict(list), set(), set()
    for f in antt_files():
        is_record = False
        for line in read(f).split("\n"):
            if re.match(r"(?:pub )?record ", line):
                is_record = True
            elif line and line[0] != " ":
                is_record = False
            field = re.match(r" +(?:pub )?([^\s:{}()]+) :", line)
            if is_record and field:
                if "-" in field.group(1):
                    fields.add(field.group(1))
                continue
            if re.match(r"  +(?:abbrev |unfoldable )?pub ", line):
                line = line.lstrip()
            if not line or line[0] in " -" or line.startswith(("use ", "mod ", "pub mod", "pub use", "unfolding")):
                continue
            m = DEF.match(line)
            if not m:
                continue
            kind, name = m.group(1).split(), m.group(2)
            if f.endswith("Proof.antt") and re.search(r"Need-|statement|:\s*(tie|goal)\.|-lts\.|borrow\.Fn|-spec\b", line):
                goals.add(name)
            elif {"abbrev", "unfoldable", "data", "record"} & set(kind):
                defs.add(name)
            else:
                lemmas[name].append(f)
    return defs, lemmas, goals, fields


def functions():
    names = set()
    for f in glob.glob("crates/*/src/**/*.rt", recursive=True):
        names.update(re.findall(r"\bfn ([a-z_0-9]+)", read(f)))
    return names


def cut(name, known):
    parts, out, i = name.split("-"), [], 0
    while i < len(parts):
        for j in range(len(parts), i, -1):
            word = "_".join(parts[i:j])
            if word in known:
                out.append((word, True))
                i = j
                break
        else:
            out.append((parts[i], False))
            i += 1
    text = out[0][0]
    for (_, before), (word, here) in zip(out, out[1:]):
        text += ("-" if before and here else "_") + word
    return text


def table():
    defs, lemmas, goals, fields = gather()
    fns = functions()
    camel = set()
    for f in antt_files() + glob.glob("crates/*/src/**/*.rt", recursive=True):
        text = read(f)
        if f.endswith(".rt"):
            text = re.sub(r'"(?:[^"\\]|\\.)*"', '""', text)
        camel.update(t for t in TOKEN.findall(text) if is_camel(t))
    new = {c: snake(c) for c in camel}
    here = {t for f in antt_files() for t in re.findall(r"(?<![\w.'#·-])[a-z][a-z0-9]*(?:_[a-z0-9]+)+(?![\w'·-])", re.sub(r"(?m)^use .*$|^ *--.*$", "", read(f)))}
    for c in sorted(camel):
        if snake(c) in here:
            new[snake(c)] = snake(c) + "_lem"
    known = {new.get(d, d) for d in defs} | fns | WORDS
    taken = set(new.values()) | set(camel) | {d for d in defs} | {n for n in lemmas if "-" not in n}
    for name in sorted(fields):
        to = name.replace("-", "_")
        new[name] = to + ("_lem" if to in taken else "")
    for name in sorted(set(lemmas) - fields):
        if "-" not in name or name in goals or not re.fullmatch(r"[A-Za-z0-9_'-]+", name):
            continue
        to = cut(name, known)
        if to != name and to in taken:
            to += "_lem"
        if to != name:
            new[name] = to
        taken.add(to)
    return new, defs, lemmas, fields


def turn(text, new, fields, rust):
    def one(m):
        name = m.group(1)
        to = new.get(name)
        if to is None:
            return name
        if "-" in name and name not in fields and m.start() > 0 and text[m.start() - 1] == "." and not re.search(r"[A-Z][A-Za-z0-9]*\.$", text[max(0, m.start() - 40):m.start()]):
            return name
        return to
    if not rust:
        return TOKEN.sub(one, text)
    pieces = re.split(r'("(?:[^"\\\n]|\\.)*")', text)
    return "".join(p if k % 2 else TOKEN.sub(one, p) for k, p in enumerate(pieces))


def main():
    new, defs, lemmas, fields = table()
    seen = collections.defaultdict(list)
    for a, b in new.items():
        seen[b].append(a)
    for b, names in sorted(seen.items()):
        if len(names) > 1 or b in defs or b in lemmas:
            print("together:", b, names, "and one that stood" if b in defs or b in lemmas else "")
    for a, b in sorted(new.items()):
        print(a, b)
    if "--only-list" in sys.argv:
        return
    files = antt_files() + sorted(glob.glob("crates/*/src/**/*.rt", recursive=True)) + sorted(glob.glob("crates/*/must-fail/*.edit"))
    for f in files:
        text = read(f)
        out = turn(text, new, fields, not f.endswith(".antt"))
        if out != text:
            open(f, "w", encoding="utf8").write(out)


main()
