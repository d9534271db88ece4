#!/usr/bin/env python3
"""Brings the repository's own definitions and lemmas to today's spelling, after /opt/rattle/port/port.py.

usage: python3 tools/respell.py [--say]      at the top of the repository

Words are in snake case: `firstRows` is `first_rows`, and a lemma `kept-more` is `kept_more`. Types and modules keep their
capitals. Only names that a file of specs/ or proofs/ declares are turned, wherever an .antt or .rt file has them. The
names of goals in a function's proof are Rattle's, and stay. --say lists names that fall together and changes nothing.
"""
import collections
import os
import re
import sys

WORD = re.compile(r"[^\s(){}\[\];:,.|⟦⟧⌜⌝\"«»λ]+")
DECLARED = re.compile(r"^\s*(?:pub |abbrev |unfoldable |opaque )*(?:data |record |ruleset )?([^\s(){}\[\];:,.\"][^(){}\[\];:,.\"]*?)(?: [({].*?[)}])* : (.*)$")
# A name that a `use` line gives, and a local one of the script's definitions.
ALIAS = re.compile(r"^(?:ghost )?use .*")
AS = re.compile(r" as ([a-z][A-Za-z0-9'-]*)")
LOCAL = ["isNamed", "isRight"]
GOAL = re.compile(r"^(?:\S*-)?(?:tie|lts|reads)\.|^\S+\.(?:Need|InvT|MeasureT|invariant|decreases)")
# Names that would fall together with another: what each is called instead. A lemma that would have its definition's name gets `_lem`.
LEMMAS = """checkpoint-number note-keys map-refused rising-keys row-value followed-value alone-cells alone-text list-text refused-text reply-text
walked-cells walked-text row-bytes zero-from first-from is-there numbered-by timely-by first-slot""".split()
APART = {name: name.replace("-", "_") + "_lem" for name in LEMMAS} | {"recordBytes": "record_size"}
# The same of names that port.py has turned already, each in the one file that has both.
TURNED = {"history/specs/MapPlaces.antt": {"is_free": "is_free_lem"}, "history/specs/Marked.antt": {"called_on": "called_on_lem"}}
# Modules whose names Rattle now makes itself.
MODULES = {"Contracts": "CallContracts"}


def snake(name):
    if name in APART:
        return APART[name]
    name = name.replace("′", "'").replace("-", "_")
    return re.sub(r"(?<=[a-z0-9])([A-Z])", lambda m: "_" + m[1].lower(), name)


def files(root):
    for folder, dirs, names in os.walk(os.path.join(root, "crates")):
        dirs[:] = sorted(d for d in dirs if d not in ("out", "must-fail"))
        for name in sorted(names):
            if name.endswith((".antt", ".rt")):
                yield os.path.join(folder, name)


def declared(root):
    found = collections.defaultdict(set)
    for name in LOCAL:
        found[name].add("script")
    for path in files(root):
        for line in open(path, encoding="utf-8"):
            for name in AS.findall(line) if ALIAS.match(line) else []:
                if not re.search(r"-(reads|lts|kinds)$", name) and snake(name) != name:
                    found[name].add(path)
            if not path.endswith(".antt"):
                continue
            m = DECLARED.match(line)
            if not m or line.lstrip().startswith(("--", "let ", "use ", "→")) or GOAL.match(m[2]):
                continue
            for name in m[1].split():
                if re.match(r"^\+?[a-z][A-Za-z0-9'′_-]*$", name) and snake(name) != name:
                    found[name].add(path)
    return found


def turned(text, names, path):
    """The text with its words turned, in comments too, since they speak of the names."""
    first = next((turn for file, turn in TURNED.items() if path.endswith(file)), {})
    return WORD.sub(lambda m: first.get(m[0]) or names.get(m[0], m[0]), text)


def main(argv):
    root = "."
    found = declared(root)
    names = {name: snake(name) for name in found}
    if "--say" in argv:
        say(root, names, found)
        return 0
    for old, new in MODULES.items():
        for path in list(files(root)):
            if os.path.basename(path) == old + ".antt" and os.path.basename(os.path.dirname(path)) == "specs":
                os.rename(path, os.path.join(os.path.dirname(path), new + ".antt"))
    changed = 0
    for path in files(root):
        text = open(path, encoding="utf-8").read()
        new = turned(text, names, path)
        for a, b in MODULES.items():
            new = re.sub(rf"\.specs\.{a}(?![\w'-])", f".specs.{b}", new)
            new = re.sub(rf"^((?:pub )?mod ){a}$", rf"\1{b}", new, flags=re.M)
        if new != text:
            open(path, "w", encoding="utf-8").write(new)
            changed += 1
    print(f"respell: {len(names)} names, {changed} files")
    return 0


def say(root, names, found):
    byNew = collections.defaultdict(set)
    for old, new in names.items():
        byNew[new].add(old)
    print(f"{len(names)} names")
    for path in files(root):
        text = open(path, encoding="utf-8").read()
        code = "\n".join(l.split("--")[0] if path.endswith(".antt") else l.split("//")[0] for l in text.split("\n"))
        words = set(WORD.findall(code))
        seen = collections.defaultdict(set)
        for w in words:
            seen[names.get(w, w)].add(w)
        for new, olds in sorted(seen.items()):
            if len(olds) > 1:
                print(f"{path}: {new} <- {' '.join(sorted(olds))}")


if __name__ == "__main__":
    raise SystemExit(main(sys.argv[1:]))
