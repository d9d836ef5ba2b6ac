#!/usr/bin/env python3
"""Counts the places of docs/DESIGN-PASS.md in crates/*/src. Usage: tools/places.py [--list POINT] [ROOT]
Each point is counted by the patterns below, in code alone: comments and contracts are left out."""
import re
import sys
from pathlib import Path

LENT = r"(?:table|flags|blocks|copies|held|dirty|words|written|writers|copied|since)"


def code_of(path):
    """The lines of a file with no comments and no clauses."""
    text = re.sub(r"//[^\n]*", "", path.read_text())
    out, at = [], 0
    for clause in re.finditer(r"\n\s*(?:requires|ensures)\b[^{;\n]*\{", text):
        if clause.start() < at:
            continue
        depth, end = 0, clause.end() - 1
        while True:
            depth += {"{": 1, "}": -1}.get(text[end], 0)
            end += 1
            if depth == 0:
                break
        out.append(text[at:clause.start()])
        at = end
    return "".join(out) + text[at:]


def functions(code):
    for found in re.finditer(r"\bfn (\w+)(?:<[^>]*>)?\(([^)]*)\)(?: -> ([^{;]+))?", code):
        params = [part.strip() for part in re.split(r",(?![^\[]*\])", found.group(2)) if part.strip()]
        yield found.group(1), params, (found.group(3) or "").strip()


def enums(code):
    for found in re.finditer(r"\benum (\w+)[^{]*\{(.*?)\n\}", code, re.S):
        body = re.sub(r"\{[^{}]*\}|\([^()]*\)", "+", found.group(2))
        yield found.group(1), [part.strip() for part in body.split(",") if part.strip()]


def structs(code):
    for found in re.finditer(r"\bstruct (\w+)[^{;(]*\{(.*?)\n\}", code, re.S):
        yield found.group(1), re.findall(r"(\w+): ([^,\n]+),", found.group(2))


def point1(code):
    for name, variants in enums(code):
        full = [v for v in variants if "+" in v]
        if len(variants) in (2, 3) and len(full) == 1 or name == "ImageWritten":
            yield f"enum {name}"
    yield from (f"const {n}: {t}" for n, t in re.findall(r"const (?!TENTH|LARGEST)([A-Z_]+): (u8|u64) = \d+;", code))
    for name, params, result in functions(code):
        codes = [p for p in params if re.fullmatch(r"(?:kind|refusal|program|letter|outcome): (?:u8|u64)|number: u8", p)]
        if codes:
            yield f"fn {name}({codes[0]})"
        if result in ("u8", "u64") and re.search(r"kind|refusal|letter|outcome|crash|report|^end$|step_table|number_in", name):
            yield f"fn {name} -> {result}"
    for name, fields in structs(code):
        for field, kind in fields:
            if re.fullmatch(r"kind|program|refusal|outcome", field) and kind in ("u8", "u64"):
                yield f"{name}.{field}: {kind}"
    for name, fields in structs(code):
        if any(f == "found" and k == "bool" for f, k in fields) and len(fields) > 1:
            yield f"struct {name}: a flag with a value"


def point2(code):
    return ()


def point3(code):
    yield from (f"while {test.strip()}" for test in re.findall(r"\n\s*while ([^{]*)\{", code))


def point4(code):
    names = r"either|chosen|kind_if|one_if|wide|wide_version|bit|code|raised|lowered|at_most|least|less|larger|copy|same\w*|is_digit"
    yield from (f"fn {name}" for name, _, _ in functions(code) if re.fullmatch(names, name))
    yield from ("impl {}" for _ in re.findall(r"\nimpl \w+ \{\}", code))


def point5(code):
    for name, params, _ in functions(code):
        if sum(1 for p in params if re.match(LENT + r": &", p)) >= 3:
            yield f"fn {name}: three lent arrays or more"
        elif len(params) >= 7:
            yield f"fn {name}: {len(params)} parameters"


def point6(code):
    for name, fields in structs(code):
        arrays = [re.match(r"\[[^;]+; ([^\]]+)\]", kind) for _, kind in fields]
        sizes = [a.group(1) for a in arrays if a]
        if len(sizes) != len(set(sizes)):
            yield f"struct {name}: arrays of one length"
        if sizes and any(f in ("count", "len", "length") for f, _ in fields):
            yield f"struct {name}: an array with a length"


def point7(code):
    switch = r"\bmatch ((?:\w+\.)?(?:kind|program|word|letter|number)|(?:letter_of|word_at)\([^)]*\)) \{"
    yield from (f"match {what}" for what in re.findall(switch, code))
    yield from (f"if {what}" for what in re.findall(r"\bif (\w*(?:kind|program) == \w+)", code))


POINTS = {1: point1, 3: point3, 4: point4, 5: point5, 6: point6, 7: point7}


def repeats(root):
    """Runs of six lines or more, comments and clauses aside, that stand in two places of src/ (point 2)."""
    seen, runs = {}, 0
    for path in sorted(root.glob("crates/*/src/**/*.rt")):
        lines = [line.strip() for line in code_of(path).splitlines() if len(line.strip()) > 3 and not line.strip().startswith(("use ", "ghost use", "pub use"))]
        taken = -1
        for k in range(len(lines) - 5):
            run = "\n".join(lines[k : k + 6])
            if run in seen and k > taken:
                runs += 1
                taken = k + 5
            seen.setdefault(run, path)
    return runs


def main():
    args = sys.argv[1:]
    wanted = int(args[1]) if args[:1] == ["--list"] else None
    rest = args[2:] if wanted else args
    root = Path(rest[0]) if rest else Path(__file__).resolve().parent.parent
    counts = dict.fromkeys(POINTS, 0)
    for path in sorted(root.glob("crates/*/src/**/*.rt")):
        code = code_of(path)
        for point, places in POINTS.items():
            for place in places(code):
                counts[point] += 1
                if point == wanted:
                    print(f"{path.relative_to(root)}: {place}")
    if wanted is None:
        for point in range(1, 8):
            print(f"point {point}: {repeats(root) if point == 2 else counts[point]}")
        files = list(root.glob("crates/*/proofs/**/*.antt"))
        own = [f for f in files if f.name in ("Answers.antt", "Invariants.antt")]
        print(f"point 8: {len(own)} files of answers and invariants, {sum(len(f.read_text().splitlines()) for f in own)} lines; {len(files) - len(own)} of lemmas")


main()
