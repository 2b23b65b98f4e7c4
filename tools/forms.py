#!/usr/bin/env python3
"""Lists places in crates/*/src that a reader may want to see in another form.

    python3 tools/forms.py            prints how many places each search finds
    python3 tools/forms.py POINT..    prints the places of these points, as 1 or 3

It goes by text: what it finds has to be read. docs/DESIGN-PASS.md says what each place is.
"""
import collections
import glob
import re
import sys

FILES = sorted(glob.glob("crates/*/src/**/*.rt", recursive=True))
TEXTS = {name: open(name).read() for name in FILES}


def lines(pattern):
    """Each line that the pattern meets, as file:line: text; comments are passed over."""
    found = []
    for name, text in TEXTS.items():
        for number, line in enumerate(text.split("\n"), 1):
            if line.lstrip().startswith("//"):
                continue
            if re.search(pattern, line):
                found.append(f"{name}:{number}: {line.strip()}")
    return found


def functions():
    """Each function: file, line, name, parameters, contract, body."""
    for name, text in TEXTS.items():
        for start in re.finditer(r"^ *(?:#\[.*\]\s*)?(?:pub(?:\(crate\))? )?(?:extern \"C\" )?fn (\w+)", text, re.M):
            rest = text[start.start():]
            head = re.match(r"[^\{;]*?\((.*?)\)\s*(?:->[^\n{;]*)?[\n{;]", rest, re.S)
            parameters = head.group(1) if head else ""
            indent = re.match(r" *", rest.lstrip("\n")).group(0)
            opened = re.search(r"^" + indent + r"\{\n(.*?)^" + indent + r"\}|\{\n(.*?)^" + indent + r"\}", rest, re.S | re.M)
            body = (opened.group(1) or opened.group(2) or "") if opened else ""
            contract = rest[: opened.start()] if opened else rest.split(";")[0]
            line = text.count("\n", 0, start.start()) + 1
            yield name, line, start.group(1), parameters, contract, body


def plain(body):
    """A body with its types, constants and literals left out."""
    body = re.sub(r"//.*", "", body)
    body = re.sub(r"\"(?:[^\"\\]|\\.)*\"|b?'(?:[^'\\]|\\.)+'|0x[0-9A-Fa-f_]+|\b\d[\d_]*\b", "L", body)
    body = re.sub(r"\b[A-Z]\w*\b|\bu8\b|\bu32\b|\bu64\b|\busize\b", "T", body)
    body = re.sub(r"(?:L,?\s*)+", "L ", body)
    return re.sub(r"\s+", " ", body).strip()


def twins():
    groups = collections.defaultdict(list)
    for name, line, function, _, _, body in functions():
        form = plain(body)
        if len(form) >= 12:
            groups[form].append(f"{name}:{line}: fn {function}")
    return [", ".join(group) for group in groups.values() if len(group) > 1]


def facts():
    """Clauses that stand in three or more contracts, with parameters and bounds left out."""
    groups = collections.defaultdict(set)
    for name, line, function, parameters, contract, _ in functions():
        own = set(re.findall(r"(\w+):", parameters)) | {"self"}
        for clause in re.findall(r"^\s*(?:requires|ensures)\*?\s*\w*\s*\{\s*(.*?)\s*\};?\s*$", contract, re.M):
            for part in re.split(r"\) × \(", clause.strip("()")):
                part = re.sub(r"\b[A-Z]\.(?:[A-Z]\w+\.)?", "", part)
                part = re.sub(r"(?<![\w.])(" + "|".join(sorted(own)) + r")\b", "_", part)
                groups[re.sub(r"\s+", " ", part)].add(f"{name}:{line}: fn {function}")
    return [f"{len(places)} times {{ {fact} }}" for fact, places in groups.items() if len(places) >= 3]


def travelling():
    """Pairs of parameters that stand together in three or more functions."""
    groups = collections.defaultdict(set)
    for name, line, function, parameters, _, _ in functions():
        own = sorted({re.sub(r"\s+", " ", p.strip()) for p in parameters.replace("\n", " ").split(",") if ":" in p})
        own = [p for p in own if not p.startswith("heap:")]
        for i, first in enumerate(own):
            for second in own[i + 1:]:
                groups[first, second].add(f"{name}:{line}: fn {function}")
    return [f"{len(places)} times ({first}, {second})" for (first, second), places in groups.items() if len(places) >= 3]


def indexed():
    """Loops over enumerate whose body writes at the index."""
    found = []
    for name, text in TEXTS.items():
        for loop in re.finditer(r"^( *)for \((\w+), .*enumerate\(\) \{\n(.*?)^\1\}", text, re.S | re.M):
            if re.search(r"\w+\[" + loop.group(2) + r"\]\s*[-+*^|&]?=[^=]", loop.group(3)):
                found.append(f"{name}:{text.count(chr(10), 0, loop.start()) + 1}")
    return found


def parallel():
    """Structs with two or more arrays of one length, or an array and its length."""
    found = []
    for name, text in TEXTS.items():
        for struct in re.finditer(r"struct (\w+)[^{;]*\{(.*?)^\}", text, re.S | re.M):
            sizes = re.findall(r": \[.*; (\w+)\],", struct.group(2))
            if len(sizes) != len(set(sizes)) or (sizes and re.search(r"\b(len|count): usize", struct.group(2))):
                found.append(f"{name}: struct {struct.group(1)}")
    return found


SEARCHES = [
    ("1a", "own enums, to be read for the shape of Option or Result", lambda: lines(r"\benum \w+")),
    ("1b", "arms of a match over Option or Result", lambda: lines(r"^\s*(Ok|Err|Some|None)(\(.*\))? =>")),
    ("1c", "numbers handed out or kept for a kind or a refusal", lambda: lines(r"^\s*const [A-Z]+: u8\b|fn number\w*\(.*-> u8|^\s*p1: u8|=> 255|\{ 255 \}|return 255")),
    ("2", "groups of functions whose bodies differ in types, constants and literals alone", twins),
    ("3a", "loops over a range, and while loops", lambda: lines(r"^\s*for \w+ in .*\.\.|^\s*(while|loop)\b")),
    ("3b", "counters that are raised by hand", lambda: lines(r"\+= 1;")),
    ("3c", "loops that write by an index that enumerate gives", indexed),
    ("3d", "other loops", lambda: [p for p in lines(r"^\s*for .* in ") if ".." not in p.split(" in ")[1]]),
    ("4a", "conversions by a method of their own", lambda: lines(r"fn (from_byte|byte|number|\w*_words)\b")),
    ("4b", "comparisons of values by matches! or by a match", lambda: lines(r"matches!|=> true,|=> false,")),
    ("4c", "arrays spelled out index by index", lambda: lines(r"\[\w+\[\w+( \+ \d)?\], \w+\[\w+( \+ \d)?\]")),
    ("4d", "a part of a slice copied into an array of zeros", lambda: lines(r"^\s*\w+\.copy_from_slice\(&\w+(\.\w+)?\[")),
    ("5a", "facts in three or more contracts", facts),
    ("5b", "pairs of parameters in three or more functions", travelling),
    ("6a", "lengths or counts handed beside a slice", lambda: lines(r"\b_?(len|count): usize")),
    ("6b", "structs with parallel arrays, or an array and its length", parallel),
    ("7", "function pointers, dyn, boxed closures", lambda: lines(r"\bfn\(|\bdyn\b|Box<")),
]


def main():
    wanted = sys.argv[1:]
    for point, what, search in SEARCHES:
        if wanted and point not in wanted and point[0] not in wanted:
            continue
        found = search()
        print(f"{point:3} {len(found):3}  {what}")
        if wanted:
            for place in found:
                print("        " + place)


main()
