#!/usr/bin/env python3
"""Spells the repository's own names as today's library spells its names: definitions, lemmas, fields and variables of specs/, proofs/ and
clauses in snake case; in specs/ and clauses the library's tests and look-ups by their words (nat_eq, nat_lt, nat_le, slice_index_or).

usage: respell.py [FOLDER]

Run it once, at the top of the repository or of FOLDER, right after the kit's port.py. Names in code and of goals stay. Where a lemma would
have a definition's name it ends in _lem. It prints names that fall together.
"""

import collections
import os
import re
import subprocess
import sys

sys.dont_write_bytecode = True
NAME = r'[^\s(){}.;,@"«»]+'
QUIET = re.compile(r'"(?:[^"\\\n]|\\.)*"|(?<![^\s(){}.;,@"«»])--[^\n]*|\{-.*?-\}', re.S)
DECLARED = re.compile(rf"(?m)^ *(?:(?:pub|abbrev|unfoldable|data|record) )*({NAME})(?: \{{[^{{}}\n]*\}})*(?: \([^()\n]*\))* :([^\n]*)")
BOUND = re.compile(r"\blet ([^=\n]*?)=|λ ([^.\n]*)\.|\(((?:[^\s(){}.;,@\"«»]+ )+): ")
IMPORT = re.compile(r"\buse ([^\s;{]+)\.\{([^}]*)\}")
GOAL = re.compile(r"^\s*(?:tie\.|\S*lts\.|\S*\.Need-|\(t : |statement)|Need-|statement M")
# Two declarations that would have one name; and names that would hide what their record speaks of.
OWN = {
    "goesOn": "goes_on_after",
    "bit-and": "bit_of_and",
    "bit-or": "bit_of_or",
    "deny-overrides": "as_deny_overrides",
    "permit-overrides": "as_permit_overrides",
}
WORDS = {"eqb": "nat_eq", "ltb": "nat_lt", "leb": "nat_le", "get_or": "slice_index_or"}


def snake_case(name):
    return re.sub(r"(?<=[a-z0-9])[A-Z]|(?<=[A-Z])[A-Z](?=[a-z])", lambda m: "_" + m[0].lower(), name).replace("-", "_")


def turns(name):
    return name[:1].islower() and (re.search(r"[a-z0-9][A-Z]", name) or "-" in name)


def is_document(path, top):
    """A page of the repository, but CHANGES.md, which tells of earlier states."""
    parts = os.path.relpath(path, top).split(os.sep)
    return path.endswith(".md") and not {"out", "target"} & set(parts) and parts[-1] not in ("CHANGES.md", "PORT.md")


def main():
    top = os.path.abspath(sys.argv[1] if len(sys.argv) > 1 else ".")
    kit = os.path.dirname(subprocess.run(["rt", "doc"], capture_output=True, text=True).stdout.split()[-1])
    sys.path.insert(0, os.path.join(kit, "port/notes/2026-11-18-names-are-in-snake-case"))
    import snake

    crates = [f for f in snake.files_below(os.path.join(top, "crates")) if "/out/" not in f]
    antt = {f: open(f, encoding="utf-8").read() for f in crates if f.endswith(".antt")}
    is_proof = lambda f: f.endswith("/Proof.antt")
    library = set()
    for folder in ("logic", "antt", "core", "std", "std_alloc", "std_collections", "std_heap", "std_io"):
        for f in snake.files_below(os.path.join(kit, "rattle", folder)):
            if f.endswith(".antt"):
                library.update(re.findall(NAME, QUIET.sub(" ", open(f, encoding="utf-8", errors="replace").read())))

    # what is declared, in specs/ first: a definition keeps the plain name
    declared = collections.defaultdict(list)
    for f, text in sorted(antt.items(), key=lambda it: "/proofs/" in it[0]):
        if not is_proof(f):
            for name, _ in DECLARED.findall(QUIET.sub(" ", text)):
                declared[name].append(f)
    table, taken = {}, {name: name for name in declared if not turns(name)}
    lemmas = lambda name: all("/proofs/" in f for f in declared[name])
    for name in sorted((n for n in declared if turns(n)), key=lambda n: ("-" in n, lemmas(n), n)):
        new = OWN.get(name, snake_case(name))
        if new in taken and taken[new] != name:
            rival = taken[new]
            print(f"{name} and {rival} would both be {new}")
            if lemmas(rival) and not lemmas(name) or not turns(rival) and "/proofs/" in declared[rival][0]:
                table[rival] = new + "_lem"
            else:
                new += "_lem"
        table[name] = new
        taken[new] = name
    # variables in the texts, and lemmas of a function's own proof
    here = collections.defaultdict(dict)
    for f, text in antt.items():
        code = QUIET.sub(" ", text)
        if is_proof(f):
            goals = {n for n, rest in DECLARED.findall(code) if GOAL.search(rest)}
            names = [n for n, rest in DECLARED.findall(code) if not GOAL.search(rest) and not n.endswith("-spec")]
            for it in BOUND.findall(code):
                names += re.findall(NAME, " ".join(it))
            names = [n for n in names if n not in goals]
        else:
            names = re.findall(NAME, code)
        here[f] = {n: snake_case(n) for n in names if turns(n) and n not in library and n not in table and "Need-" not in n}

    own = "|".join(sorted(os.listdir(os.path.join(top, "crates"))))
    count = 0
    for f in crates:
        kind = {"antt": "antt", "rt": "rt"}.get(f.rsplit(".", 1)[-1])
        if not kind:
            continue
        words = WORDS if kind == "rt" or "/specs/" in f else {}
        old = open(f, encoding="utf-8").read()
        theirs = set()
        for path, names in IMPORT.findall(QUIET.sub(" ", old)):
            if not re.match(rf"Rattle\.({own})\.", path):
                theirs.update(re.findall(NAME, names))
        full = {k: v for k, v in {**table, **here[f]}.items() if k not in theirs}
        turner = snake.Turner({**full, **words}, "file", set(), [])
        new = getattr(turner, kind)(old, f)
        if len(new) != len(old):
            new, _ = snake.realigned(old, new)
        if new != old:
            count += 1
            with open(f, "w", encoding="utf-8") as out:
                out.write(new)
    # names that fall together in one file
    for f in crates:
        if f.endswith(".antt"):
            code = QUIET.sub(" ", antt[f])
            words = set(re.findall(NAME, code))
            full = {**table, **here[f]}
            into = collections.defaultdict(set)
            for w in words:
                into[full.get(w, w)].add(w)
            for new, olds in into.items():
                if len(olds) > 1:
                    print(f"together: {os.path.relpath(f, top)}: {', '.join(sorted(olds))}")
    # documents: the words of the table, and those that port.py has respelled in the sources
    there = {table.get(n, n) for n in declared}
    documents = dict(table)
    for f in [f for f in snake.files_below(top) if is_document(f, top)]:
        for w in re.findall(NAME + r"|[\w-]+", open(f, encoding="utf-8").read()):
            w = w.strip("`|:*")
            if turns(w) and w not in documents:
                new = snake_case(w)
                if "-" in w and new + "_lem" in there:
                    documents[w] = new + "_lem"
                elif new in there:
                    documents[w] = new
    for f in [f for f in snake.files_below(top) if is_document(f, top)]:
        turner = snake.Turner(documents, "none", set(), [])
        old = open(f, encoding="utf-8").read()
        new = turner.md(old, f)
        if new != old:
            count += 1
            with open(f, "w", encoding="utf-8") as out:
                out.write(new)
    for crate in sorted(os.listdir(os.path.join(top, "crates"))):
        subprocess.run(["rt", "fmt"], cwd=os.path.join(top, "crates", crate), stdout=subprocess.DEVNULL, stderr=subprocess.DEVNULL)
    print(f"respell: {len(table)} names, {count} files")


if __name__ == "__main__":
    main()
