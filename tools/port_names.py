#!/usr/bin/env python3
"""Brings the repository's own definitions, lemmas and fields to today's spelling, once, after port.py.

usage: python3 tools/port_names.py [--dry] [--names FILE]      at the top of the repository; FILE gets each old name with its new one

Words are in snake case: `all-digits` becomes `all_digits`. A dash stays only in a lemma, between two names that it
speaks of (`length-spelt`, `hex-append`). Types are in camel case. Functions of src/, exported names, strings, inputs and outputs are
left alone. It goes by declarations: a token is turned where the file declares it or may name it from this repository, and not where
the file imports the same name from a library. What would fall together is printed, and gets `_lem` where it is a lemma.
"""
import glob
import os
import re
import sys

CRATES = sorted(os.listdir("crates"))
TOKEN = re.compile(r"[^\s(){}\[\].,;\"«»@`]+")
HEAD = re.compile(r"^(\s*)((?:(?:abbrev|unfoldable|data|record|ruleset|pub)\s+)*)([^\s:(){}\".,;]+)((?:\s+[({][^:=]*)?)?\s*:(?=\s)")
# words of the library that a lemma may speak of
LIBRARY = set("""length append nil cons take drop set get_or map filter fold sum reverse concat zero suc one two add sub mul div mod pow min max lt le eq ne
ltb leb eqb beq cond not and or true false iff if some none bit_and bit_or bit_xor""".split())

# facts that were spelled as words, with the file that declares each (`Sized` is another: raft's, of messages)
FACTS = {"sized": ("IsSized", "frames", "Message"), "stands": ("StandsAt", "frames", "Spelling"), "eight-bytes": ("EightBytes", "raft", "FitLaws")}


def files(*patterns):
    return sorted(p for s in patterns for p in glob.glob(s, recursive=True))


ANTT = files("crates/*/specs/**/*.antt") + [p for p in files("crates/*/proofs/**/*.antt") if os.path.basename(p) != "Proof.antt"]
PROOFS = files("crates/*/proofs/**/Proof.antt")
RUST = files("crates/*/src/**/*.rt")
EDITS = files("crates/*/must-fail/*.edit")


def declared():
    """Every name that specs/ and the lemma files declare: definitions and fields on one side, lemmas on the other."""
    words, lemmas = set(), set()
    for path in ANTT:
        record = None
        for line in open(path, encoding="utf-8"):
            if record is not None and line.strip() and len(line) - len(line.lstrip()) <= record:
                record = None
            m = HEAD.match(line)
            if not m or line.lstrip().startswith(("--", "use ", "let ", "where")):
                continue
            kind, name = m[2], m[3]
            if re.search(r"\b(record|data)\b", kind):
                words.add(name)
                record = len(m[1])
            elif record is not None or re.search(r"\b(abbrev|unfoldable)\b", kind):
                words.add(name)
            else:
                lemmas.add(name)
    return words, lemmas - words


def camel(name):
    return "".join(w[:1].upper() + w[1:] for w in name.split("-"))


def snake(name):
    if name[:1].isupper() and not name.isupper():
        head, *rest = name.split("-")
        # a type, or a lemma about one
        return camel(name) if rest else name
    return name.replace("-", "_")


def joined(name, known):
    """A lemma's name: a dash between two names, an underscore before and after a plain word."""
    parts, got, i = name.split("-"), [], 0
    while i < len(parts):
        for j in range(len(parts), i, -1):
            word = "_".join(parts[i:j])
            if word in known or j == i + 1:
                got.append((word, word in known))
                i = j
                break
    out = got[0][0]
    for (_, before), (word, here) in zip(got, got[1:]):
        out += ("-" if before and here else "_") + word
    return out


def mapping():
    words, lemmas = declared()
    to = {w: snake(w) for w in words if "-" in w}
    known = {snake(w) for w in words} | LIBRARY
    taken = {snake(w) for w in words} | {n for n in lemmas if "-" not in n}
    for n in sorted(lemmas):
        if "-" not in n:
            continue
        new = joined(n, known)
        while new in taken and new != n:
            print(f"fall together: {n} and {new}: {new}_lem")
            new += "_lem"
        if new != n:
            to[n] = new
        taken.add(new)
    turned = {}
    for old, new in to.items():
        if new in turned:
            print(f"fall together: {old}, {turned[new]} at {new}")
        turned[new] = old
    return to


def imports(text):
    """The names that a file takes from libraries, and those that it takes from this repository."""
    library, own = set(), set()
    for m in re.finditer(r"^(?:ghost )?use ([^\s{}]+?)\.?(?:\{([^}]*)\})?;?$", text, re.M):
        module, names = m[1], m[2] or ""
        crate = re.match(r"Rattle\.(\w+)\.", module)
        mine = bool(crate) and crate[1] in CRATES
        for it in names.split(","):
            it = it.strip().split(" as ")[0].strip()
            (own if mine else library).add(it)
    return library, own


def facts(path, text):
    """The facts of FACTS that a file declares or imports."""
    for old, (new, crate, module) in FACTS.items():
        if path == f"crates/{crate}/specs/{module}.antt":
            yield old, new
        for m in re.finditer(rf"^(?:ghost )?use Rattle\.{crate}\.specs\.{module}\.{{([^}}]*)}}", text, re.M):
            if old in [it.strip() for it in m[1].split(",")]:
                yield old, new


def turn(text, to, skip=frozenset(), comments="--"):
    out = []
    for line in text.split("\n"):
        code, mark, said = line, "", ""
        at = line.find(comments)
        if at >= 0 and (at == 0 or line[at - 1] == " "):
            code, said = line[:at], line[at:]
        code = TOKEN.sub(lambda m: to[m[0]] if m[0] in to and m[0] not in skip else m[0], code)
        said = re.sub(r"`[^`]*`", lambda q: TOKEN.sub(lambda m: to.get(m[0], m[0]), q[0]), said)
        out.append(code + said)
    return "\n".join(out)


def main():
    to = mapping()
    for old in FACTS:
        to.pop(old, None)
    dry = "--dry" in sys.argv
    changed = 0
    for path in ANTT + PROOFS + RUST + EDITS:
        text = open(path, encoding="utf-8").read()
        library, own = imports(text)
        if path.endswith(".rt"):
            # in code only the ghost uses and the clauses speak of specs/; a dash there is a minus with blanks around it
            new = turn(text, to, library, "//")
        elif path.endswith(".edit"):
            new = "\n".join(l if l.startswith("#") else turn(l, to, frozenset(), "\0") for l in text.split("\n"))
        else:
            new = turn(text, to, library - own)
        if path.endswith((".rt", ".antt")):
            new = turn(new, dict(facts(path, text)))
        if new != text:
            tokens = set(TOKEN.findall(text))
            for old in tokens & set(to):
                if to[old] in tokens and (path.endswith((".rt", ".antt"))) and to[old] not in own:
                    print(f"look: {path}: {old} becomes {to[old]}, which the file has")
            changed += 1
            if not dry:
                open(path, "w", encoding="utf-8").write(new)
    for path in files("*.md", "docs/**/*.md", "tests/*.md", "bench/*.md") if not dry else []:
        if os.path.basename(path) in ("PORT.md",):
            continue
        text = open(path, encoding="utf-8").read()
        new = re.sub(r"`[^`\n]*`", lambda q: TOKEN.sub(lambda m: to[m[0]] if m[0] in to and "-" in m[0] else m[0], q[0]), text)
        if new != text:
            open(path, "w", encoding="utf-8").write(new)
    print(f"{len(to)} names, {changed} files")
    if "--names" in sys.argv:
        with open(sys.argv[sys.argv.index("--names") + 1], "w", encoding="utf-8") as f:
            f.writelines(f"{a}\t{b}\n" for a, b in sorted(to.items()))


main()
