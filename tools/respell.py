#!/usr/bin/env python3
"""respell.py: brings the repository's own names in .antt files to today's spelling, once, right after port.py.

Run at the top. A definition, lemma, field or constructor of specs/ and proofs/ that begins with a small letter is written in snake
case; a lemma that would take its function's name ends in `_lem`; a module of rules/proofs that holds modules is in upper camel case.
Names of src/, of the standard library and of generated goals stay. Proof.antt files define no name that is turned.
Contracts, must-fail edits and documents follow the same table."""
import os
import re

TOKEN = re.compile(r"[^\s(){}\[\].,;«»\"`]+")
SIGNATURE = re.compile(r"\s*(?:unfoldable |abbrev |pattern )*(?:pub )?((?:[^\s(){}\[\].,;:]+ )*?)?([^\s(){}\[\].,;:]+) :( |$)")
MARKS = ("unfoldable", "abbrev", "pub", "pattern")
OTHER = ("let ", "--", "|", "λ", "(", "→", "use ", "pub use")
FOLDERS = "book demand desks houses lengths lists messages pages possible protocol readers reads records refine refusals steps stream".split()
MORE = {"G-low": "G_low", "Nearer-wf": "Nearer_wf"}


def module(name):
    return "Reading" if name == "reads" else name.capitalize()


def files(ends):
    for folder, folders, names in os.walk("crates"):
        folders[:] = sorted(x for x in folders if x != "out")
        for name in sorted(names):
            if name.endswith(ends):
                yield os.path.join(folder, name)


def read(path):
    with open(path, encoding="utf-8") as f:
        return f.read()


def defined(path):
    for line in read(path).split("\n"):
        m = SIGNATURE.match(line)
        if m and not line.lstrip().startswith(OTHER):
            yield from (n for n in (m.group(1) or "").split() + [m.group(2)] if n not in MARKS)


def snake(name):
    name = re.sub(r"([a-z0-9])([A-Z])", lambda m: m.group(1) + "_" + m.group(2).lower(), name.replace("′", "'"))
    return name.replace("-", "_")


def table():
    own = {n for p in files(".antt") if not p.endswith("/Proof.antt") for n in defined(p)}
    turned = {n: snake(n) for n in own if re.match("[a-z]", n)}
    kept = {n for n, s in turned.items() if n == s}
    camel = {s for n, s in turned.items() if "-" not in n and n != s}
    turned = {n: s + "_lem" if "-" in n and (s in camel or s in kept) else s for n, s in turned.items() if n != s}
    return turned | MORE, {n: n + "_lem" for n in kept & camel}


def tokens(text, names, plain=lambda m: False):
    def turn(m):
        n = m.group(0)
        if n not in names:
            return n
        return snake(n) if plain(m) else names[n]
    return TOKEN.sub(turn, text)


def prose(text, names):
    camel = {n: s for n, s in names.items() if "-" not in n}
    return re.sub(r"`[^`]*`", lambda m: tokens(m.group(0), names), tokens(text, camel))


def folders(text):
    text = re.sub(r"\bRattle\.rules\.proofs\.(%s)\b" % "|".join(FOLDERS), lambda m: "Rattle.rules.proofs." + module(m.group(1)), text)
    return re.sub(r"\brules/proofs/(%s)\b" % "|".join(FOLDERS), lambda m: "rules/proofs/" + module(m.group(1)), text)


def code(path, text, names):
    comment = "--" if path.endswith(".antt") else "//"
    proof = path.endswith("/Proof.antt")
    out = []
    for line in text.split("\n"):
        at = re.search(r"(^|\s)%s " % comment, line)
        head, tail = (line[: at.start()], line[at.start() :]) if at else (line, "")
        step = lambda m: proof and m.start() > 0 and m.string[m.start() - 1] == "."
        out.append(tokens(head, names, step) + prose(tail, names))
    return folders("\n".join(out))


def write(path, text):
    if text != read(path):
        with open(path, "w", encoding="utf-8") as f:
            f.write(text)


def main():
    names, lemmas = table()
    for path in files((".antt", ".rt")):
        text = code(path, read(path), names | lemmas if path.endswith(".antt") else names)
        if path == "crates/rules/proofs/Lib.antt":
            text = re.sub(r"\bmod (%s)\b" % "|".join(FOLDERS), lambda m: "mod " + module(m.group(1)), text)
        write(path, text)
    for path in files(".edit"):
        write(path, folders(tokens(read(path), names)))
    for folder, _, names_in in os.walk("docs"):
        for name in sorted(names_in):
            path = os.path.join(folder, name)
            write(path, folders(prose(read(path), names)))
    for name in FOLDERS:
        for end in (".antt", ""):
            old = "crates/rules/proofs/" + name + end
            if os.path.exists(old):
                os.rename(old, "crates/rules/proofs/" + module(name) + end)
    print(len(names) + len(lemmas), "names turned")


main()
