#!/usr/bin/env python3
"""Respells this repository's own definitions and lemmas as today's Rattle spells names.

usage: tools/respell.py [PATH]     at the top of a repository that port.py has turned, once; it rewrites files below crates/

Words are in snake case, so `scalarCount` becomes `scalar_count`. In a lemma's name a dash stays where it joins two names that are
declared or imported, as in `bits-length`; a plain word is added by `_`, as in `walked_bits`. A lemma that would have a definition's
name ends in `_lem`. A prime is an apostrophe. Names of types and modules, names that come from the source, and what stands in quotes
keep their spelling, and so does a word of the library. The names turned are those that specs/ and the lemma files of proofs/ declare;
they are turned in all .antt files, in .rt files and in must-fail edits. A file specs/Contracts.antt becomes ByContract.antt, since
Rattle makes a module of that name. Given a path, it writes the names there, old and new, and else to standard output.
"""
import glob
import os
import re
import sys

WORD = r"[^\s(){}\[\],;.:\"⌜⌝⟦⟧|«»`]+"
RESERVED = set("data record deriving module where use mod pub package open as unfoldable abbrev axiom unfold unfolding ruleset mutual infix infixl infixr elim let in do Type coe fcoe tcoe hcom com assumption ground search grind simp omega rw cc".split())
DECLARED = re.compile(r"(?:(?:abbrev|unfoldable|pub|infixl|infixr|infix|let)\s+)*(?:(?:record|data)\s+)?(" + WORD + r")(?:\s*\{[^}]*\}|\s*\([^()]*(?:\([^()]*\)[^()]*)*\))*\s*:(?!:)")

# Lemmas whose name would be a definition's in the same file, by file.
LEMMAS = {
    "crates/theorems/proofs/CallSteps.antt": ["none_left"],
    "crates/theorems/proofs/Combination.antt": ["by_left", "by_right"],
    "crates/theorems/proofs/Demand2.antt": ["none_after"],
    "crates/theorems/proofs/Exact.antt": ["none_after"],
    "crates/theorems/proofs/FunctionSets.antt": ["empty_of", "list_count"],
    "crates/theorems/proofs/WgslArguments.antt": ["to_both"],
    "crates/theorems/proofs/WgslRegulars.antt": ["in_order"],
    "crates/worksheet/proofs/Whole.antt": ["root_answer"],
}


def files(*patterns):
    for p in patterns:
        for f in sorted(glob.glob(p, recursive=True)):
            if "/out/" not in f:
                yield f


def lemma_files():
    for f in files("crates/*/specs/**/*.antt", "crates/*/proofs/**/*.antt"):
        if "/specs/" in f or os.path.basename(f) not in ("Proof.antt", "Answers.antt", "Invariants.antt"):
            yield f


def declarations():
    # Each name that a line declares, at any depth; and each word in camel case, since nothing else of antt's or of the source has it.
    found = {}
    for f in lemma_files():
        for line in open(f, encoding="utf-8"):
            if line.startswith("--"):
                continue
            m = DECLARED.match(line.lstrip())
            if m and not line.lstrip().startswith("use "):
                found.setdefault(m.group(1), set()).add(f)
            for word in re.findall(WORD, line):
                if re.fullmatch(r"[a-z][a-z0-9]*(?:[A-Z][a-z0-9]*)+\??(?:-[a-zA-Z0-9-]+)?", word):
                    found.setdefault(word, set()).add(f)
    return found


def imported():
    found = set()
    for f in files("crates/**/*.antt", "crates/*/src/**/*.rt"):
        for line in open(f, encoding="utf-8"):
            m = re.match(r"\s*(?:ghost )?(?:pub )?use ([\w·.]+)\.\{([^}]*)\}", line)
            if m and re.match(r"Rattle\.std\.|lib\.|mathlib\.|native\.|Prim\.|borrow\.|denote\.|logic\.", m.group(1)):
                for item in m.group(2).split(","):
                    found.add(item.strip().split(" as ")[0])
    return found


def snake(word):
    if re.match(r"[a-z].*[A-Z]", word) and "::" not in word:
        word = word.replace("getD", "getOr")
        return re.sub(r"(?<=[a-z0-9])([A-Z])", lambda m: "_" + m.group(1).lower(), word).lower()
    return word


def respelled(name, known):
    parts = [snake(p) if not re.match(r"[A-Z]", p) else p for p in name.split("-")]
    if len(parts) == 1 or "" in parts:
        return snake(name)
    pieces, i = [], 0
    while i < len(parts):
        for j in range(len(parts), i, -1):
            if "_".join(parts[i:j]) in known:
                pieces.append(("_".join(parts[i:j]), True))
                i = j
                break
        else:
            pieces.append((parts[i], False))
            i += 1
    text, before = pieces[0][0], pieces[0][1]
    for piece, is_name in pieces[1:]:
        text += ("-" if before and is_name else "_") + piece
        before = is_name
    return text


def table():
    declared, library = declarations(), imported()
    known = {snake(n) for n in declared if "-" not in n} | {n for n in library if "-" not in n} | {n for n in declared if re.match(r"[A-Z]", n)}
    rows = {}
    for name in sorted(declared):
        if re.match(r"[A-Z«◌]", name) and "′" not in name and not re.match(r"[A-Z]\w*-", name) or name in library or "::" in name:
            continue
        new = respelled(name, known).replace("′", "'")
        if new != name and new not in RESERVED:
            rows[name] = new
    while True:
        # A lemma that would have a definition's name ends in `_lem`.
        more = {}
        for f in files("crates/**/*.antt"):
            seen = {}
            for word in set(re.findall(WORD, open(f, encoding="utf-8").read())):
                seen.setdefault(rows.get(word, word), set()).add(word)
            for new, olds in seen.items():
                if len(olds) > 1:
                    lemmas = [w for w in olds if "-" in w and w in rows]
                    if not lemmas and not any(w in LEMMAS.get(f, []) for w in olds):
                        print(f"together in {f}: {', '.join(sorted(olds))}")
                    for w in lemmas:
                        more[w] = new + "_lem"
        if not more:
            break
        rows.update(more)
    return rows


def turn(text, rows):
    # What stands in quotes is a string of the program, or the text of one, and keeps its spelling.
    return re.sub(r'"[^"\n]*"|' + WORD, lambda m: rows.get(m.group(0), m.group(0)), text)


def ghost_only(text, rows):
    # In Rust no identifier has a capital behind a small letter or a dash, so a row's name stands in ghost text or in a comment alone.
    return turn(text, {k: v for k, v in rows.items() if re.search(r"[A-Z-]", k)})


def main():
    rows = table()
    for f in files("crates/**/*.antt", "crates/*/src/**/*.rt", "crates/*/must-fail/*.edit"):
        old = open(f, encoding="utf-8").read()
        new = turn(old, rows | {w: w + "_lem" for w in LEMMAS.get(f, [])}) if f.endswith(".antt") else ghost_only(old, rows)
        if "′" in new and f.endswith(".antt"):
            new = new.replace("′", "'")
        if f.endswith(".edit"):
            new = new.replace("′", "'") if re.search(r"^file: (specs|proofs)/", new, re.M) else new
        if new != old:
            open(f, "w", encoding="utf-8").write(new)
    for old in files("crates/*/specs/Contracts.antt"):
        crate = old.split("/")[1]
        os.rename(old, old.replace("Contracts.antt", "ByContract.antt"))
        for f in files("crates/**/*.antt", "crates/*/must-fail/*.edit"):
            text = open(f, encoding="utf-8").read()
            new = text.replace(f"Rattle.{crate}.specs.Contracts", f"Rattle.{crate}.specs.ByContract").replace("specs/Contracts.antt", "specs/ByContract.antt")
            if f == f"crates/{crate}/specs/Lib.antt":
                new = re.sub(r"\bmod Contracts\b", "mod ByContract", new)
            if new != text:
                open(f, "w", encoding="utf-8").write(new)
    with open(sys.argv[1], "w", encoding="utf-8") if len(sys.argv) > 1 else sys.stdout as out:
        for k, v in sorted(rows.items()):
            print(f"{k}\t{v}", file=out)


if __name__ == "__main__":
    main()
