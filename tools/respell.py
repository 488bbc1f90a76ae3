#!/usr/bin/env python3
"""Spells the repository's own definitions and lemmas as the installed Rattle's library spells its own: words in snake case.

usage: tools/respell.py        at the top of the repository, once, after the kit's own scripts have turned the files

A declared name of specs/ or proofs/ that has a dash or a capital inside, as `real-engine` or `lineOf`, becomes `real_engine` or `line_of` wherever it
stands: in definitions, lemmas, contracts, must-fail edits and, between backticks, in comments and pages. Types, modules and the names of src/ stay, and so
does a name that some file imports from a library. Of names that would fall together the lemma gets `_lem` and the word `_of`; each is said. The crate `hex`
becomes `hex_digits`, since the library has a crate of that name.
"""

import os
import re
import sys
from pathlib import Path

ROOT = Path(__file__).resolve().parent.parent
WORD = r"[\w'\-]"
DECLARED = re.compile(r"^\s*((?:abbrev |unfoldable |pub |private )*)(?:record |data )?([^\s:(){}.,;]+)(?: \([^:()]*:.*?\)| \{[^:{}]*:.*?\})* :")
LISTED = re.compile(r"use ([\w.'\-]+)\.\{([^}]*)\}", re.S)
PAGES = ("README.md", "docs/DECISIONS.md", "docs/LANDINGS.md", "docs/PROMISES.md", "reference/DECISIONS.md", "tools/outcomes")


def snake(name):
    turned = re.sub(r"(?<=[a-z0-9])([A-Z])", r"_\1", name)
    return "_".join(p if re.fullmatch(r"[A-Z]\w*", p) and i == 0 else p.lower() if p[:1].isupper() and i else p for i, p in enumerate(turned.replace("-", "_").split("_")))


def files(*ends):
    for folder, dirs, names in os.walk(ROOT / "crates"):
        dirs[:] = sorted(d for d in dirs if d not in ("out", "target"))
        for name in sorted(names):
            if name.endswith(ends):
                yield Path(folder) / name


def code_of(line, mark):
    """The line up to its comment, and the comment."""
    at = line.find(mark)
    return (line, "") if at < 0 else (line[:at], line[at:])


def rename_crate():
    old, new = ROOT / "crates/hex", ROOT / "crates/hex_digits"
    if old.exists():
        old.rename(new)
    for p in [*files(".rt", ".antt"), ROOT / "crates.txt", ROOT / "tools/outcomes"]:
        text = p.read_text()
        turned = text.replace("Rattle.hex.", "Rattle.hex_digits.").replace("use hex::", "use hex_digits::").replace("hex::", "hex_digits::")
        if p.name == "crates.txt":
            turned = re.sub(r"\bhex\b", "hex_digits", text)
        turned = turned.replace("hex_digits_digits", "hex_digits")
        if p.suffix == ".antt":
            turned = re.sub(r"\bRattle\.hex as hex\b", "Rattle.hex_digits as hex", turned)
        if turned != text:
            p.write_text(turned)


def main():
    rename_crate()
    crates = {d.name for d in (ROOT / "crates").iterdir()}
    declared, foreign, tokens = {}, set(), set()
    for p in files(".antt", ".rt"):
        text = p.read_text()
        for module, names in LISTED.findall(text):
            parts = module.split(".")
            if not (parts[0] == "Rattle" and len(parts) > 1 and parts[1] in crates):
                foreign.update(n.strip() for n in names.replace("\n", " ").split(","))
        for line in text.splitlines():
            code = code_of(line, "--" if p.suffix == ".antt" else "//")[0]
            tokens.update(re.findall(WORD + "+", code))
            if p.suffix == ".antt" and p.name != "Proof.antt":
                m = DECLARED.match(code)
                if m:
                    declared.setdefault(m.group(2), set()).add(str(p.relative_to(ROOT)))
    turn, taken = {}, {}
    for name in sorted(declared):
        if not re.fullmatch(WORD + "+", name) or name[0].isupper() and "-" not in name:
            continue
        if snake(name) != name:
            taken.setdefault(snake(name), []).append(name)
    for new, olds in sorted(taken.items()):
        known = [o for o in olds if o in foreign]
        if known:
            print(f"stays, since a library has it: {', '.join(known)}")
            continue
        # A lemma that would have the name of what it is about gets `_lem`; a word may have the name of the function of src/ that it is the value of.
        words = [o for o in olds if "-" not in o]
        lemmas = [o for o in olds if "-" in o]
        if len(words) == 1 and not lemmas and new in declared and new + "_of" not in tokens:
            print(f"look: {words[0]} -> {new}_of")
            turn[words[0]] = new + "_of"
            continue
        if len(words) > 1 or len(lemmas) > 1 or words and new in declared or new + "_lem" in tokens:
            print(f"stays, since names would fall together: {', '.join(olds)} -> {new}")
            continue
        for word in words:
            turn[word] = new
        for lemma in lemmas:
            turn[lemma] = new + "_lem" if words or new in tokens else new
        if len(olds) > 1 or new in tokens:
            print(f"look: {', '.join(f'{o} -> {turn[o]}' for o in olds)}" + (" (in use)" if new in tokens else ""))
    one = re.compile(r"(?<![\w'\-])(" + "|".join(sorted(map(re.escape, turn), key=len, reverse=True)) + r")(?![\w'\-])")
    said = lambda text: one.sub(lambda m: turn[m.group(1)], text)
    ticked = lambda text: re.sub(r"`[^`]*`", lambda m: said(m.group(0)), text)
    capital = re.compile(r"(?<![\w'\-])(" + "|".join(o for o in turn if "-" not in o) + r")(?![\w'\-])")
    words_only = lambda text: capital.sub(lambda m: turn[m.group(1)], text)
    count = 0
    for p in files(".antt", ".rt", ".edit"):
        mark = {".antt": "--", ".rt": "//", ".edit": None}[p.suffix]
        out = []
        for line in p.read_text().split("\n"):
            if mark is None:
                out.append(said(line) if line.startswith(("old:", "new:")) else ticked(line))
                continue
            code, comment = code_of(line, mark)
            out.append(said(code) + ticked(comment))
        text = "\n".join(out)
        if text != p.read_text():
            p.write_text(text)
            count += 1
    for name in PAGES:
        p = ROOT / name
        if p.exists():
            text = p.read_text()
            turned = said(text) if p.suffix != ".md" else "\n".join(words_only(ticked(line)) for line in text.split("\n"))
            if turned != text:
                p.write_text(turned)
                count += 1
    print(f"{len(turn)} names, {count} files")


if __name__ == "__main__":
    sys.exit(main())
