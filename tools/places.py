#!/usr/bin/env python3
"""Prints the lines of src/ that may be a place of a point of docs/DESIGN-PASS.md, and counts them.

usage: tools/places.py [COMMIT]     (HEAD if none is given)

What it prints is read by a person: not each line is a place.
"""
import collections
import itertools
import re
import subprocess
import sys

COMMIT = sys.argv[1] if len(sys.argv) > 1 else "HEAD"


def git(*words):
    return subprocess.run(["git", *words], capture_output=True, text=True, check=True).stdout


FILES = [f for f in git("ls-tree", "-r", "--name-only", COMMIT, "crates").split("\n") if "/src/" in f]
TEXTS = {f: git("show", f"{COMMIT}:{f}") for f in FILES}


def show(title, rows):
    print(f"== {title}: {len(rows)}")
    for row in rows:
        print("   ", row)


def lines(pattern):
    found = []
    for name, text in TEXTS.items():
        for number, line in enumerate(text.split("\n"), 1):
            if re.search(pattern, line) and not line.lstrip().startswith("//"):
                found.append(f"{name}:{number}: {line.strip()}")
    return found


def functions():
    for name, text in TEXTS.items():
        for match in re.finditer(r"fn ([a-z_0-9]+)(?:<[^>(]*>)?\(([^{;]*?)\)\s*(?:->|\n|\{|where)", text, re.S):
            pairs = [re.sub(r"\s+", " ", p.replace("mut ", "")).strip() for p in match.group(2).split(",")]
            yield name.split("/")[1] + "::" + match.group(1), [p for p in pairs if ":" in p]


show("1, own enums", lines(r"^ *(pub(\([a-z]+\))? )?enum "))
show("1, flags in structs", lines(r"^ +(pub )?[a-z_]+: bool,$"))
show("1, flags as answers", lines(r"-> bool"))
show("1, numbers by name", lines(r"const [A-Z_]+: u(8|16|32|size)\b"))
show("1, kinds as text", lines(r'^ +b?"[a-z0-9_]+" =>|\[&str;'))

names = collections.defaultdict(set)
for function, _ in functions():
    crate, name = function.split("::")
    names[name].add(crate)
show("2, names of functions in two or more crates", sorted(f"{n}: {', '.join(sorted(c))}" for n, c in names.items() if len(c) > 1))

show("3, loops", lines(r"^ *(while|loop|for) "))
show("4, conversions and comparisons by hand", lines(r"fn (eq|ne|cmp|clone|is_same|same|of|of_[a-z]+|[a-z]+_words?|words|upper)\b|\* 256"))

clauses = collections.Counter()
for name, text in TEXTS.items():
    for clause in re.findall(r"(?:requires|ensures)(?: [a-z_]+)? (\{.*\})", text):
        clauses[clause] += 1
show("5, clauses that stand three times or more", [f"{n} {c}" for c, n in clauses.most_common() if n > 2])

pairs = collections.defaultdict(list)
for function, parameters in functions():
    for pair in itertools.combinations(parameters, 2):
        pairs[pair].append(function)
show("5, parameters that stand together three times or more", [f"{len(v)} {' + '.join(k)}: {', '.join(v)}" for k, v in sorted(pairs.items(), key=lambda kv: -len(kv[1])) if len(v) > 2])

show("6, arrays, and counts beside them", lines(r"\[[A-Za-z0-9]+; [A-Z_0-9]+\][,)]?$|^ +(pub )?(len|size|count|at|used): u(8|size),"))
show("7, functions as values", lines(r"\bfn\(|dyn |impl Fn|: Fn"))
proofs = [f for f in git("ls-tree", "-r", "--name-only", COMMIT, "crates").split("\n") if "/proofs/" in f]
print(f"== 8, proof files: {len(proofs)}, with {sum(git('show', f'{COMMIT}:{f}').count(chr(10)) for f in proofs)} lines")
