#!/usr/bin/env python3
"""Counts the places of docs/DESIGN-PASS.md in the crates' src/.

    tools/places.py [--list] [COMMIT]

Without COMMIT it reads the working tree. --list prints each place as well.
"""
import collections
import itertools
import pathlib
import re
import subprocess
import sys

ROOT = pathlib.Path(__file__).resolve().parent.parent


def sources(commit, pattern):
    """The texts of all files that match, by their paths."""
    if commit is None:
        return {str(p.relative_to(ROOT)): p.read_text() for p in sorted(ROOT.glob(pattern))
                if "out" not in p.relative_to(ROOT).parts}
    git = ["git", "-C", str(ROOT)]
    names = subprocess.run(git + ["ls-tree", "-r", "--name-only", commit], capture_output=True, text=True, check=True).stdout.split()
    return {n: subprocess.run(git + ["show", f"{commit}:{n}"], capture_output=True, text=True, check=True).stdout
            for n in names if pathlib.PurePath(n).match(pattern.replace("**/", "*"))
            or (n.startswith("crates/") and n.split("/")[2:3] == pattern.split("/")[2:3] and n.endswith(pattern.rsplit(".", 1)[1]))}


def matching(texts, *patterns):
    """The lines that match one of the patterns."""
    whole = re.compile("|".join(patterns))
    return [f"{name}:{i}: {line.strip()}" for name, text in texts.items()
            for i, line in enumerate(text.splitlines(), 1)
            if whole.search(line) and not re.match(r"\s*(//|ghost|ensures|requires|use)", line)]


FUNCTION = re.compile(r"^([ \t]*)(?:pub(?:\(\w+\))? )?(?:const )?(?:extern \"C\" )?fn (\w+)", re.M)


def is_declared(text, start):
    """Whether a trait declares the function that starts here, with no body."""
    body, semicolon = text.find("{\n", start), text.find(";\n", start)
    return 0 < semicolon and (body < 0 or semicolon < body)


def functions(text):
    """Each function's name, signature, clauses and body."""
    found = []
    for m in FUNCTION.finditer(text):
        indent = m.group(1)
        ends = [e for e in (text.find(f"\n{indent}}}", m.start()), text.find(f"\n{indent}{{}}", m.start()),
                            text.find(";\n", m.start()) if is_declared(text, m.start()) else -1) if e > 0]
        whole = text[m.start():min(ends) if ends else len(text)]
        open_body = re.search(rf"(\{{|\n{indent}\{{)\n", whole)
        head = whole[:open_body.start()] if open_body else whole
        body = whole[open_body.end():] if open_body else ""
        clause = re.search(r"\n\s*(requires|ensures)", head)
        signature = head[:clause.start()] if clause else head
        clauses = re.findall(r"(?:requires|ensures)\*? ?\w* ?(\{.*\})", head)
        found.append((m.group(2), signature, clauses, body))
    return found


def shape(body):
    """A body with each name and number made alike."""
    body = re.sub(r"//.*", "", body)
    return re.sub(r"[A-Za-z_]\w*", lambda w: w.group() if w.group() in ("if", "else", "for", "in", "match", "return", "while", "let", "mut") else "x",
                  re.sub(r"\b\d[\d_]*\b|b?\"[^\"]*\"|b'[^']*'", "0", body)).split()


def twins(texts):
    """Groups of functions of one shape."""
    shapes = collections.defaultdict(list)
    for name, text in texts.items():
        for f, _, _, body in functions(text):
            tokens = tuple(re.findall(r"\w+|\S", " ".join(shape(body))))
            if len(tokens) >= 14:
                shapes[tokens].append(f"{name}: {f}")
    return [", ".join(group) for group in shapes.values() if len(group) > 1]


def crate(name):
    return name.split("/")[1]


def repeated_clauses(texts):
    """Clauses that stand on three functions or more of a crate."""
    seen = collections.defaultdict(set)
    for name, text in texts.items():
        for f, _, clauses, _ in functions(text):
            for clause in clauses:
                seen[crate(name), clause].add(f)
    return [f"{c}: {clause} on {len(fs)}: {', '.join(sorted(fs))}" for (c, clause), fs in seen.items() if len(fs) > 2]


def travelling(texts):
    """The largest groups of parameters that stand together on three functions or more of a crate."""
    taken = collections.defaultdict(dict)
    for name, text in texts.items():
        for f, signature, _, _ in functions(text):
            parameters = re.findall(r"(\w+): ([^,)\n]+)", signature[signature.find("("):])
            taken[crate(name)][f"{pathlib.PurePath(name).stem}::{f}"] = {
                f"{n}: " + re.sub(r"'\w+ ", "", t) for n, t in parameters if n not in ("heap", "f", "rt")}
    groups = {}
    for c, fs in taken.items():
        for three in itertools.combinations(fs, 3):
            common = frozenset.intersection(*(frozenset(fs[f]) for f in three))
            if len(common) > 1:
                groups[c, common] = sorted(f for f in fs if common <= fs[f])
    return [f"{c}: {', '.join(sorted(common))} on {len(fs)}: {', '.join(fs)}" for (c, common), fs in groups.items()]


def proof_lines(commit):
    texts = sources(commit, "crates/*/proofs/**/*.antt")
    return [f"{name}: {len(text.splitlines())} lines" for name, text in texts.items()], sum(len(t.splitlines()) for t in texts.values())


def main():
    arguments = [a for a in sys.argv[1:] if a != "--list"]
    commit = arguments[0] if arguments else None
    texts = sources(commit, "crates/*/src/**/*.rt")
    points = {
        "1 results by hand, numbers for kinds": matching(
            texts, r"\.ok\(\)\?", r"let Ok\(.*else", r"Err\(_\) =>", r"Err\(\w+\) => (return )?Err\(", r"if let Err\(",
            r"\b(page|kind|layer|phase): u(8|16|32|64|size)\b", r"== 0 \{ Kind"),
        "2 functions of one shape": twins(texts),
        "3 indices counted by hand": matching(texts, r"for \w+ in 0\.\.(?!=?(STATIONS|BLOCKS|u64::MAX|books))", r"for \(\w+, .*enumerate", r"^\s*while (?!let)", r"\w+ \+= 1;"),
        "4 comparing, converting and printing by hand": matching(
            texts, r"=> (true|false),", r"fn (name|head_of|show_\w+|describe_\w+|refusal)\b", r"(if|else if) \w+ == \"", r"^\s+(money|energy): \w+\.(money|energy|charge|deviation)\b"),
        "5 clauses on three functions or more": repeated_clauses(texts),
        "5 parameters that travel together": travelling(texts),
        "6 buffers with a length, parallel arrays": matching(texts, r"\[[\w<>' &]+; (5|32|96|BLOCKS|GENERATORS|MOST_GATHERED)\]", r"^\s*(pub )?count: usize,$"),
        "7 switches and tables of functions": matching(texts, r"\b\w+: bool\b", r": fn\("),
    }
    for point, places in points.items():
        print(f"{point}: {len(places)}")
        if "--list" in sys.argv:
            for place in places:
                print(f"    {place}")
    files, lines = proof_lines(commit)
    print(f"8 files of proofs: {len(files)}, with {lines} lines")


if __name__ == "__main__":
    main()
