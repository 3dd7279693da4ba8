#!/usr/bin/env python3
"""Brings this repository's own definitions and lemmas to the spelling of today's Rattle: words in snake case, facts in upper camel case, to which a dash joins a name.
Run once, at the top, behind the kit's port.py, which respells only some of them.

Names of src/, exported C names, strings, inputs and outputs are not touched, nor the names of goals, which stand in proofs/FUNCTION/.
"""

import collections
import glob
import os
import re
import sys

WORD = r"[^\s:(){}\[\],.;λ→×=|«»⌜⌝\"`]+"
# Names that need more than a spelling, and laws that would fall together with what they tell of.
GIVEN = {"hasRoom": "HasRoom", "align-up": "align_up_lem"}
LAWS = {"free_part": "freePart", "runs_to": "runsTo", "large_page": "largePage", "not_canonical": "notCanonical"}


def files(pattern):
    return sorted(f for f in glob.glob(pattern, recursive=True) if "/out/" not in f)


def read(path):
    with open(path, encoding="utf-8") as f:
        return f.read()


def own_files():
    return files("crates/*/specs/*.antt") + files("crates/*/proofs/*.antt")


def defined():
    """What our files of definitions and of laws define: names, fields, constructors."""
    names = set()
    for path in own_files():
        text = read(path)
        for m in re.finditer(rf"^(?:abbrev |unfoldable )?(?:pub )?({WORD}) :", text, re.M):
            names.add(m[1])
        for m in re.finditer(rf"^  (?:pub )?({WORD}) :|^\s+pub ({WORD}) :", text, re.M):
            names.add(m[1] or m[2])
        for m in re.finditer(rf"^  (?:pub )?((?:{WORD} )+{WORD}) : ", text, re.M):
            names |= set(m[1].split()) - {"pub"}
        for m in re.finditer(rf"^(?:pub )?(?:record|data) ({WORD})", text, re.M):
            names.add(m[1])
    return names


def aliases():
    """Names given by `as` in an import."""
    names = set()
    for path in files("crates/**/*.rt") + files("crates/**/*.antt"):
        for m in re.finditer(rf"^(?:ghost |pub )*use [^\n]*?\{{([^}}]*)\}}", read(path), re.M):
            for part in m[1].split(","):
                if " as " in part:
                    names.add(part.split(" as ")[1].strip())
    return names


def imported():
    """Names that come from the library."""
    names = set()
    for path in files("crates/**/*.antt") + files("crates/**/*.rt"):
        for m in re.finditer(rf"^(?:ghost |pub )*use ([^\s{{]+)\.\{{([^}}]*)\}}", read(path), re.M):
            if not (m[1].startswith("Rattle.") and not m[1].startswith("Rattle.std.")):
                names |= {p.split(" as ")[0].strip() for p in m[2].split(",")}
    return names


def snake(part):
    if re.match(r"[a-z][A-Za-z0-9_]*[A-Z]", part):
        return re.sub(r"(?<=[a-z0-9])([A-Z]+)", lambda m: "_" + m[1].lower(), part)
    return part


def spelled(name):
    if name in GIVEN:
        return GIVEN[name]
    parts = [snake(p) for p in name.split("-")]
    out = left = parts[0]
    for p in parts[1:]:
        out += ("-" if left[:1].isupper() or p[:1].isupper() else "_") + p
        left = p
    return out


def table():
    own = defined()
    library = imported()
    turned = {}
    for n in sorted(own | aliases()):
        if n in library and n not in own:
            continue
        if not re.match(r"[A-Za-z]", n):
            continue
        s = n + "_lem" if LAWS.get(n) in own else spelled(n)
        if s != n:
            turned[n] = s
    # A law that would have its function's name gets `_lem`.
    functions = {s for n, s in turned.items() if "-" not in n}
    for n, s in turned.items():
        if "-" in n and (s in functions or s in library or (s in own and s not in turned)):
            turned[n] = s + "_lem"
    return own, library, turned


def clashes(own, library, turned):
    said = []
    back = collections.defaultdict(list)
    for n, s in turned.items():
        back[s].append(n)
    for s, ns in sorted(back.items()):
        if len(ns) > 1 or (s in own and s not in turned) or (s in library and s not in own):
            said.append(f"{s}: {ns}{' own' if s in own else ''}{' library' if s in library else ''}")
    return said


TOKEN = re.compile(r"(?<![\w'\-₀-₉])[A-Za-z][\w'\-₀-₉]*")
COMMENT = re.compile(r'(?:^|(?<=\s))(?://|--)(?=\s|$)')


def turn(text, turned):
    """In comments a dash is one of English: only camel case is turned there."""
    camel = {n: s for n, s in turned.items() if "-" not in n and n != n.lower()}
    lines = []
    for line in text.split("\n"):
        m = COMMENT.search(line)
        code, comment = (line[: m.start()], line[m.start() :]) if m else (line, "")
        lines.append(TOKEN.sub(lambda m: turned.get(m[0], m[0]), code) + TOKEN.sub(lambda m: camel.get(m[0], m[0]), comment))
    return "\n".join(lines)


def turn_edit(text, turned):
    return "\n".join(turn(line, turned) if re.match("old:|new:", line) else line for line in text.split("\n"))


def main(argv):
    own, library, turned = table()
    for line in clashes(own, library, turned):
        print("clash:", line)
    rust = set()
    for path in files("crates/**/*.rt"):
        rust |= set(re.findall(r"\b[a-z][a-z0-9_]*\b", re.sub(r"ghost use [^;]*;", "", read(path))))
    print("as in src:", sorted(s for s in set(turned.values()) if s in rust))
    print(len(turned), "names")
    if "--write" not in argv:
        for n, s in sorted(turned.items()):
            if "--list" in argv:
                print(n, s)
        return 0
    for path in files("crates/**/*.rt") + files("crates/**/*.antt") + files("crates/*/must-fail/*.edit"):
        text = read(path)
        new = turn_edit(text, turned) if path.endswith(".edit") else turn(text, turned)
        if new != text:
            with open(path, "w", encoding="utf-8") as f:
                f.write(new)
    return 0


if __name__ == "__main__":
    sys.exit(main(sys.argv[1:]))
