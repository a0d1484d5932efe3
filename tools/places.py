#!/usr/bin/env python3
"""Places in crates/*/src to look at: python3 tools/places.py [--list] [FOLDER]

Counts, for each point of docs/DESIGN-PASS.md, the places that one of these patterns finds (a place to look at is not
yet one to change), and the lines and answers of proofs/ for the last point. --list names each place.
"""
import collections
import glob
import itertools
import re
import sys

args = [a for a in sys.argv[1:] if a != "--list"]
LIST = "--list" in sys.argv
ROOT = args[0] if args else "."
FILES = sorted(glob.glob(f"{ROOT}/crates/*/src/**/*.rt", recursive=True))
NAME = {f: f[len(ROOT) + len("/crates/"):] for f in FILES}
TEXT = {f: open(f, encoding="utf-8").read() for f in FILES}

LINES = [
    ("1 enums", r"^\s*(pub(\(crate\))? )?enum "),
    ("1 a number that stands for none", r"^(pub(\(crate\))? )?const NONE|\bNONE\b.*=>|[=!]= NONE|: NONE,|u32::MAX|usize::MAX|4_294_967_295"),
    ("1 numbers for refusals and layers", r"\(u8, u8, usize\)|fn (number|layer)\(self\) -> u8"),
    ("3 loops over numbers, while, loop", r"^\s*for \w+ in [^{]*\.\.|^\s*('\w+: )?loop \{|^\s*while "),
    ("3 a match that a method of the library is", r"(Ok|Some)\((\w+)\) => (Ok|Some)\(|Err\((\w+)\) => Err\(|Err\(_\) => (None|0|Connection)|None => (None|Err\()|Some\((\w+)\) => Ok\("),
    ("4 numbers of newtypes compared", r"\.0 (==|!=|<|<=|>|>=) \w+(\.\w+)*\.0\b"),
    ("4 equality, order, printing by hand", r"^impl.*\b(Debug|PartialEq|PartialOrd|Ord|Clone|Default) for|fn (is_ahead|earlier)\("),
    ("4 bytes taken apart or put together", r"% 256\) as u8|/ 256\) as u8|256 \* u16::from"),
    ("4 values of zeros written out", r"^const [A-Z_]+: (BoardEntry|LabelEntry|Label|Pair|Leg)\b"),
    ("6 a length beside, links by index, fixed tables", r"^\s+len: usize,|next: usize,|^\s+\w+: \[\w+(<\w+>)?; \d+\],"),
    ("7 a match on which command, call, queue", r"match [a-z_.]*(call|queues|make|name|command::read\(rt\)\?)\b"),
]


def functions(text):
    """Name, parameters and body of each function."""
    for m in re.finditer(r"\bfn (\w+)\s*(?:<(?:[^<>()]|<[^<>]*>|\([^)]*\))*>)?\(", text):
        depth, i = 1, m.end()
        while depth and i < len(text):
            depth += {"(": 1, ")": -1}.get(text[i], 0)
            i += 1
        params = text[m.end():i - 1]
        b = re.compile(r"\n\s*\{\n|\) \{\n|[\w>&?\]] \{\n").search(text, i - 1)
        if not b:
            continue
        j = text.index("{", b.start())
        depth, k = 1, j + 1
        while depth and k < len(text):
            depth += {"{": 1, "}": -1}.get(text[k], 0)
            k += 1
        yield m.group(1), params, text[j + 1:k - 1]


def shape(body):
    body = re.sub(r"//.*", "", body)
    tokens = re.findall(r"\w+|[^\w\s]", body)
    keep = {"for", "while", "loop", "if", "else", "match", "return", "let", "mut", "in", "as", "Ok", "Err", "Some", "None"}
    return " ".join(t if t in keep or not re.match(r"\w", t) else "x" for t in tokens), len(tokens)


def lines():
    for title, pattern in LINES:
        found = [f"{NAME[f]}:{n}" for f in FILES for n, l in enumerate(TEXT[f].split("\n"), 1)
                 if re.search(pattern, l) and not l.strip().startswith("//")]
        yield title, found


def twins():
    by = collections.defaultdict(list)
    for f in FILES:
        for name, _, body in functions(TEXT[f]):
            s, n = shape(body)
            if n >= 14:
                by[s].append(f"{NAME[f]}:{name}")
    return [" ~ ".join(v) for v in by.values() if len(v) > 1]


def premises():
    by = collections.Counter()
    for f in FILES:
        crate = NAME[f].split("/")[0]
        for m in re.finditer(r"requires (?:\w+ )?\{(.*)\}", TEXT[f]):
            by[crate, re.sub(r"\.(old|now)\b", "", m.group(1)).strip()] += 1
    return [f"{c}: {p} ({n} functions)" for (c, p), n in sorted(by.items()) if n >= 3]


def together():
    by = collections.Counter()
    for f in FILES:
        crate = NAME[f].split("/")[0]
        for _, params, _ in functions(TEXT[f]):
            names = [p.split(":")[0].replace("mut ", "").strip() for p in params.split(",") if ":" in p]
            for group in itertools.combinations([n for n in names if n not in ("rt", "heap")], 3):
                by[crate, group] += 1
    return [f"{c}: {', '.join(g)} ({n} functions)" for (c, g), n in sorted(by.items()) if n >= 3]


def proofs():
    files = glob.glob(f"{ROOT}/crates/*/proofs/**/*.antt", recursive=True)
    texts = [open(f, encoding="utf-8").read() for f in files]
    answers = sum(len(re.findall(r"^(?:pub|abbrev pub) \S+ : goal\.", t, re.M)) for t in texts)
    return sum(t.count("\n") for t in texts), answers


def main():
    rows = list(lines())
    rows.append(("2 functions of one shape", twins()))
    rows.append(("5 premises of three functions of a crate", premises()))
    rows.append(("5 three parameters together in three functions of a crate", together()))
    for title, found in sorted(rows, key=lambda r: r[0][0]):
        print(f"{len(found):4}  {title}")
        for place in found if LIST else []:
            print(f"        {place}")
    n, answers = proofs()
    print(f"{n:4}  8 lines of proofs, with {answers} answers and invariants")


main()
