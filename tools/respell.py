#!/usr/bin/env python3
"""Brings the repository's own definitions, lemmas, fields of records and local names to Rattle's spelling of names.

usage: python3 tools/respell.py          at the top of the repository, once, after the kit's own script port.py

Types and facts are in upper camel case, everything else is in snake case; a dash stays where it joins the name of a library
function to what the lemma says of it, as in length-pages_of. Names of functions in src/, of goals, and everything in strings
and comments stay as they are. The script prints the new names that are already spelled somewhere, as those of a module or of the
folder of a function, and with such names it writes only where it is given --go. Two names that would fall together stop it always.
"""
import os
import re
import subprocess
import sys

LIBRARY = {"length": "length", "getD": "get_or"}
# names that would else be those of fields of the session, which a clause could then take for the definitions
APART = {"header-page": "header_bytes", "limits-page": "limits_bytes", "purse-page": "purse_bytes"}
NAME = r"[^\s(){}\[\]:;.,`«»≡≢≤<>∷λ→×⊎◌∙←⌜⌝⊢]+"
TOKEN = re.compile(NAME)
TOP = re.compile(r"^(?:(?:abbrev|unfoldable|opaque|pub|data|record)\s+)*(" + NAME + r")(?:\s.*)?\s:")
FIELD = re.compile(r"^\s+(?:pub\s+)?(" + NAME + r")(?:\s+[({].*)?\s:")
LET = re.compile(r"\blet (" + NAME + r")")
ALIAS = re.compile(r"\S as (" + NAME + r")[},]")
GOAL = re.compile(r":\s*(?:goal|given|need)\.")
GENERATED = ("invariant-", "decreases-", "loop-", "returns-", "overflow", "bounds-", "slice-bounds-")


def files():
    names = subprocess.check_output(["git", "ls-files", "-co", "--exclude-standard", "crates"], text=True).split("\n")
    return [n for n in names if n.endswith((".antt", ".rt")) and os.path.exists(n)]


def code_of(line, mark):
    at = line.find(mark)
    return (line, "") if at < 0 else (line[:at], line[at:])


def declared(names):
    found = set()
    for name in names:
        with open(name, encoding="utf-8") as f:
            for line in f:
                code, _ = code_of(line, "-- ")
                if code.startswith(("use ", "ghost use ")):
                    found.update(ALIAS.findall(code))
                if not name.endswith(".antt") or code.startswith(("use ", "pub use ", "pub mod ", "mod ")) or GOAL.search(code):
                    continue
                for rule in (TOP, FIELD):
                    m = rule.match(code)
                    if m:
                        found.add(m.group(1))
                found.update(LET.findall(code))
    return {n for n in found if "-" in n and n[0].isalpha() and not n.startswith(GENERATED)}


def respelled(name):
    if name in APART:
        return APART[name]
    parts = name.split("-")
    if name[0].isupper():
        return "".join(p[:1].upper() + p[1:] for p in parts)
    if parts[0] in LIBRARY:
        return LIBRARY[parts[0]] + "-" + "_".join(parts[1:])
    return "_".join(parts)


def turn(line, names, is_rust):
    code, note = code_of(line, "// " if is_rust else "-- ")
    parts = re.split(r'("[^"]*")', code)
    parts[::2] = [TOKEN.sub(lambda m: names.get(m.group(0), m.group(0)), p) for p in parts[::2]]
    return "".join(parts) + note


def main():
    all_files = files()
    names = {n: respelled(n) for n in sorted(declared(all_files)) if respelled(n) != n}
    texts = {}
    tokens = set()
    for name in all_files:
        with open(name, encoding="utf-8") as f:
            texts[name] = f.read().split("\n")
        if name.endswith(".antt"):
            for line in texts[name]:
                tokens.update(TOKEN.findall(code_of(line, "-- ")[0]))
    new = list(names.values())
    twice = sorted({n for n in new if new.count(n) > 1})
    taken = sorted(n for n in new if n in tokens)
    if "--list" in sys.argv:
        for old in names:
            print(old, names[old])
    print("fall together:", twice, "already a name:", taken)
    if twice or (taken and "--go" not in sys.argv):
        raise SystemExit(1)
    for name in all_files:
        is_rust = name.endswith(".rt")
        out = "\n".join(turn(line, names, is_rust) for line in texts[name])
        if out != "\n".join(texts[name]):
            with open(name, "w", encoding="utf-8") as f:
                f.write(out)


if __name__ == "__main__":
    main()
