#!/usr/bin/env python3
"""Lists pairs of functions whose bodies, or whose types' fields, are nearly equal: python3 tools/twins.py [SHARE]

In functions, all names and numbers are taken as one word: two bodies are alike if they differ only in them.
In types, the names of fields and variants count, and the names of the types do not.
"""
import difflib, glob, re, sys

SHARE = float(sys.argv[1]) if len(sys.argv) > 1 else 0.8
KEPT = set("match if else for in while loop let mut return self Some None Ok Err true false Self as".split())
TOKEN = re.compile(r"[A-Za-z_]\w*|\d[\w]*|b?\"[^\"]*\"|[^\s\w]")
ITEM = re.compile(r"^( *)(?:pub(?:\([a-z]+\))? )?(fn|struct|enum) (\w+)([\s\S]*?)^\1\}$", re.M)


def words(kind, text):
    text = re.sub(r"//.*|#\[.*?\]|\bpub(\([a-z]+\))? ", "", text)
    if kind != "fn":
        return re.findall(r"\w+(?=:)|\b[A-Z]\w+(?=[,( ]| \{)", text)
    return [t if t in KEPT or not re.match(r"[\w\"]", t) else "x" for t in TOKEN.findall(text)]


def items():
    for path in sorted(glob.glob("crates/*/src/**/*.rt", recursive=True)):
        text = open(path, encoding="utf-8").read()
        for m in ITEM.finditer(text):
            rest = re.sub(r"^ *(requires|ensures|ghost) .*\n", "", m[4], flags=re.M)
            body = rest[rest.index("{"):] if "{" in rest else rest
            yield m[2], m[3], f"{path}:{text.count(chr(10), 0, m.start()) + 1}", words(m[2], body)


every = list(items())
for i, (kind, name, place, body) in enumerate(every):
    for other_kind, other, at, more in every[i + 1:]:
        small, large = sorted((len(body), len(more)))
        if kind != other_kind or small < (14 if kind == "fn" else 2) or small < SHARE * large - 1:
            continue
        share = difflib.SequenceMatcher(None, body, more, autojunk=False).ratio()
        if share >= (0.75 if kind != "fn" else SHARE if small >= 24 else 0.95):
            print(f"{share:.2f} {kind} {name} {place} = {other} {at}")
