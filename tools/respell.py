#!/usr/bin/env python3
"""Brings the repository's own definitions, fields and lemmas to the spelling of today's Rattle.

Words are in snake case: `stepOf` becomes `step_of`, `reads-back` becomes `reads_back`. Facts and types, in upper camel
case, stay, and so do the names that Rattle makes, the library's names and the functions of src/. Run once, at the top
of a checkout that was brought over by the kit's port.py. With `--list` it prints the names and changes nothing.
"""
import collections
import glob
import re
import sys

TOKEN = re.compile(r"[^\s(){}\[\];,.`\"λ⟦⟧|]+")
HEAD = re.compile(
    r"^(\s*)((?:(?:abbrev|unfoldable|pub|rec|opaque|inline|local|private|instance|constructor|irreducible)\s+)*)"
    r"([^\s(){}:;,.|]+)\s*(?::(?!=)|\{[^}]*\}\s*:|\([^)]*\)\s*:)")
WORDS = {"use", "record", "data", "let", "in", "where", "mod", "elim", "field", "pub", "abbrev", "then", "else"}
# a lemma that would have its function's name ends in _lem
LEMMA = "_lem"
# local lemmas that would have the name of a function beside them
LOCAL = {
    "crates/explaining/proofs/lines/explain_lines/Proof.antt": ["flags_long", "words_long"],
    "crates/playing/proofs/lines/play_lines/Proof.antt": ["flags_long", "words_long"],
    "crates/counting/proofs/lines/count_lines/Proof.antt": ["flags_long", "words_long"],
    "crates/reader/proofs/number/digit_at/Proof.antt": ["is_digit"],
    "crates/ledger/proofs/LinesAfter.antt": ["lines_after"],
    "crates/ledger/proofs/Provenance.antt": ["lines_after"],
}


def snake(name):
    out = re.sub(r"([a-z0-9])([A-Z])", r"\1_\2", name).replace("-", "_")
    return out.lower() if re.match(r"[a-z]", name) else name


def declared(files):
    found = collections.defaultdict(set)
    for path in files:
        for line in open(path, encoding="utf-8"):
            if line.lstrip().startswith("--"):
                continue
            m = HEAD.match(line)
            if m and m.group(3) not in WORDS and not m.group(3).startswith("--"):
                # deeper than a field or a clause of a record: a local name
                if len(m.group(1)) <= 2:
                    found[m.group(3)].add(path)
    return found


def code_of(path):
    return "".join(line for line in open(path, encoding="utf-8") if not line.lstrip().startswith(("--", "//")))


def main():
    antt = glob.glob("crates/*/specs/**/*.antt", recursive=True) + glob.glob("crates/*/proofs/**/*.antt", recursive=True)
    own = [f for f in antt if not f.endswith("/Proof.antt")]
    proofs = [f for f in antt if f.endswith("/Proof.antt")]
    names = declared(own)
    rename = {n: snake(n) for n in names
              if re.match(r"[a-z]", n) and (re.search(r"[A-Z]", n) or "-" in n) and re.fullmatch(r"[A-Za-z0-9_'\-]+", n)}
    for n in declared(proofs):
        if n.endswith("-spec"):
            rename[n] = snake(n)
    rename = {a: b for a, b in rename.items() if a != b}
    functions = {b for a, b in rename.items() if "-" not in a}
    sources = glob.glob("crates/*/src/**/*.rt", recursive=True)
    written = {path: set(TOKEN.findall(code_of(path))) for path in antt + sources}
    # local names and aliases in camel case
    for tokens in list(written.values()):
        rename.update({t: snake(t) for t in tokens if re.fullmatch(r"[a-z][a-z0-9]*([A-Z][a-z0-9]*)+", t)})
    for a, b in list(rename.items()):
        beside = any(a in tokens and b in tokens for tokens in written.values())
        if "-" in a and (b in functions or beside):
            rename[a] = b + LEMMA
        elif beside:
            print("beside one another:", a, b, [p for p, tokens in written.items() if a in tokens and b in tokens])
    if "--list" in sys.argv:
        tokens = collections.Counter()
        for path in antt:
            for line in open(path, encoding="utf-8"):
                code = line if not line.lstrip().startswith("--") else ""
                tokens.update(TOKEN.findall(code))
        rev = collections.defaultdict(set)
        for a, b in rename.items():
            rev[b].add(a)
        print(len(rename), "names")
        for b, olds in sorted(rev.items()):
            if len(olds) > 1:
                print("together:", b, sorted((o, sorted(names[o])[:2]) for o in olds))
            elif tokens[b]:
                print("taken:", b, tokens[b], "from", sorted(olds))
        return
    texts = antt + sources
    texts += glob.glob("crates/*/must-fail/*.edit") + glob.glob("crates/*/edits/*.edit")

    def turn(m):
        t = m.group(0)
        if t not in rename:
            return t
        dotted = m.start() > 0 and m.string[m.start() - 1] == "."
        return t if dotted and "-" in t else rename[t]

    # pages and edits also have the names that port.py respelled in the sources alone
    known = set().union(*written.values())

    def turn_old(m):
        t = m.group(0)
        if t in rename or t in known or not re.match(r"[a-z]", t):
            return turn(m)
        return snake(t) if snake(t) in known else t

    for path in texts:
        text = open(path, encoding="utf-8").read()
        new = text
        for name in LOCAL.get(path, []):
            new = re.sub(r"(?<![\w.\-'])" + name + r"(?![\w\-'])", name + LEMMA, new)
        new = TOKEN.sub(turn_old if path.endswith(".edit") else turn, new)
        if new != text:
            open(path, "w", encoding="utf-8").write(new)
    for path in glob.glob("*.md") + glob.glob("docs/**/*.md", recursive=True) + glob.glob("tests/**/*.md", recursive=True):
        text = open(path, encoding="utf-8").read()
        new = re.sub(r"`[^`]+`", lambda m: TOKEN.sub(turn_old, m.group(0)), text)
        new = re.sub(r"(?m)^ {4}.*$", lambda m: TOKEN.sub(turn_old, m.group(0)), new)
        if new != text:
            open(path, "w", encoding="utf-8").write(new)


main()
