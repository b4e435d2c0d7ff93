#!/usr/bin/env python3
"""Respells the repository's own definitions and lemmas: words in snake case, with no dash and no capital inside.

    python3 tools/respell.py          respells crates/*/specs, crates/*/proofs and the clauses of crates/*/src
    python3 tools/respell.py --list   only prints old and new names, and names that would fall together

Names that the checker makes (answers, invariants, measures), types, modules, functions of src/ and the library's names stay.
It is run once, right after the library's own script has turned an older repository to a newer Rattle, and never again.
"""
import re
import sys
from pathlib import Path

ROOT = Path.cwd()
TOKEN = re.compile(r"[^\s(){}\[\];,.@\"]+")
SIGNED = re.compile(r"^\s*(?:(?:unfoldable|abbrev|pub|ruleset) )*([^\s(){}\[\];,.@\"]+) :(?=\s|$)")
MADE = re.compile(r"^(returns|invariant|decreases|overflow|bounds|slice_bounds|nonzero|prove|loop|the)-|-(requires|init|preserved|smaller)(-|$)")
IMPORT = re.compile(r"^\s*(?:pub )?(?:ghost )?(?:pub )?use (Rattle\.[\w.+-]+)\.\{([^}]*)\}")

# Names that would fall together with another one beside them.
CHOSEN = {
    ("Rattle.adversary.proofs.Completing", "starts-before"): "starts_before_is",
    ("Rattle.adversary.proofs.Completing", "starts-after"): "starts_after_is",
    ("Rattle.outcomes.specs.Allowed", "carried-out"): "is_carried_out",
}


def files():
    for crate in sorted(ROOT.glob("crates/*")):
        for part, kind in (("specs", "antt"), ("proofs", "antt"), ("src", "rt")):
            yield from sorted((crate / part).rglob("*." + kind))


def respelled(name):
    name = re.sub(r"\bgetD\b", "get_or", name.replace("-", " ")).replace(" ", "_")
    name = re.sub(r"(?<=[a-z0-9])(?=[A-Z])", "_", name)
    return name.lower()


def is_old(name):
    return "-" in name or re.search(r"[a-z0-9][A-Z]", name)


def module_of(path):
    parts = path.relative_to(ROOT).with_suffix("").parts[1:]
    return "Rattle." + ".".join(parts)


def names_of(path):
    """The names that a file of specs/ or proofs/ declares, but for those that the checker asks for."""
    for line in path.read_text().splitlines():
        if IMPORT.match(line):
            yield from re.findall(r" as ([a-z][^\s,}]*)", line)
        found = SIGNED.match(line)
        if found and not found[1].startswith("--") and found[1] not in ("let", "in", "_"):
            rest = line[found.end():].strip()
            if rest.startswith("goal.") or (MADE.match(found[1]) and path.name in ("Answers.antt", "Invariants.antt", "Proof.antt")):
                continue
            yield found[1]


def main():
    modules = {module_of(path): set(names_of(path)) for path in files() if path.suffix == ".antt"}
    every = {name for names in modules.values() for name in names}
    # A definition takes the plain name, and a lemma that would have it too gets _lem.
    plain = {respelled(name) for name in every if is_old(name) and "-" not in name and name[0].islower()}
    plain |= {name for module, names in modules.items() if ".specs." in module for name in names if "_" in name}
    turns = {}
    for module, names in modules.items():
        for name in names:
            new = respelled(name) if is_old(name) and (name[0].islower() or "-" in name) else name
            if new in plain and ".proofs." in module and ("-" in name or name == new):
                new += "_lem"
            new = CHOSEN.get((module, name), new)
            if new != name:
                turns[module, name] = new
    for path in files():
        text = path.read_text()
        here, foreign = scope_of(path, text, modules)
        turn = {}
        for name, module in here.items():
            if name not in foreign and (module, name) in turns:
                turn[name] = turns[module, name]
        tokens = set(TOKEN.findall(text))
        for name, new in sorted(turn.items()):
            if new in tokens and new not in turn or list(turn.values()).count(new) > 1:
                print("falls together: %s: %s -> %s" % (path.relative_to(ROOT), name, new))
        if turn and "--list" not in sys.argv[1:]:
            path.write_text(TOKEN.sub(lambda m: turn.get(m[0], m[0]), text))
    if "--list" in sys.argv[1:]:
        for (module, name), new in sorted(turns.items()):
            print(module, name, new)


def scope_of(path, text, modules):
    """The repository's names in a file with the module that declares each, and the names that others declare."""
    own = module_of(path)
    here = {name: own for name in modules.get(own, ())}
    foreign = set()
    for line in text.splitlines():
        found = IMPORT.match(line)
        if not found:
            continue
        for name in found[2].split(","):
            name = name.strip().split(" as ")[0].strip()
            module = found[1]
            if module in modules and name not in modules[module]:
                # passed on by a file that took it from another
                module = next((m for m in modules if name in modules[m] and ".specs." in m), module)
            if name in modules.get(module, ()):
                here.setdefault(name, module)
            else:
                foreign.add(name)
    return here, foreign


if __name__ == "__main__":
    sys.exit(main())
