#!/usr/bin/env python3
"""Brings the repository's own definitions and lemmas to the spelling of today's Rattle: words in snake case, types in camel
case. Run once, at the top, after the kit's port.py: tools/respell.py. Names of the kit's libraries stay as they are. In a
function's proof files the names that the check makes are respelt too: it keeps the spelling of the source."""
import collections
import pathlib
import re
import sys

CRATES = pathlib.Path("crates")
TOKEN = re.compile(r"[A-Za-z_][A-Za-z0-9_']*(?:-[A-Za-z0-9_']+)+")
WORD = re.compile(r"[A-Za-z_][A-Za-z0-9_']*")
# What the check names after an identifier of the source, or after a branch of `?`, it writes so today.
MADE = {"in-ok-": "in_ok-", "in-err-": "in_err-", "In-ok-": "In_ok-", "In-err-": "In_err-"}


def is_function_proof(path):
    """proofs/F/Answers.antt and its like, not a lemma file right in proofs/."""
    parts = path.parts
    return "proofs" in parts and parts.index("proofs") < len(parts) - 2


def pieces(path, text):
    """The text cut into code, which is respelt, and comments and strings, which are not."""
    skip = r"--[^\n]*" if path.suffix == ".antt" else r'//[^\n]*|b?"(?:\\.|[^"\\])*"'
    at = 0
    for m in re.finditer(skip, text):
        yield True, text[at:m.start()]
        yield False, m.group(0)
        at = m.end()
    yield True, text[at:]


def respelt(name):
    if name[0].isupper():
        return "".join(part[0].upper() + part[1:] for part in name.split("-"))
    return name.replace("-", "_")


def main():
    files = sorted([*CRATES.glob("*/specs/**/*.antt"), *CRATES.glob("*/proofs/**/*.antt"), *CRATES.glob("*/src/**/*.rt")])
    texts = {f: f.read_text() for f in files}
    crates = {p.name for p in CRATES.iterdir()}
    kit, own, source, plain = set(), set(), set(), collections.defaultdict(set)
    for f, text in texts.items():
        for m in re.finditer(r"use Rattle\.(\w+)\.[\w.]*\{([^}]*)\}", text):
            if m.group(1) not in crates:
                kit.update(re.split(r"[,\s]+", m.group(2)))
        for code, piece in pieces(f, text):
            if not code:
                continue
            for token in TOKEN.findall(piece):
                if not is_function_proof(f):
                    own.add(token)
            for word in WORD.findall(TOKEN.sub(" ", piece)):
                plain[word].add(f)
                if f.suffix == ".rt" and "_" in word.strip("_"):
                    source.add(word)
    own -= kit
    fell = sorted(n for n in own if respelt(n) in plain)
    for name in fell:
        print(f"falls together: {name} with {respelt(name)} in {', '.join(map(str, sorted(plain[respelt(name)])[:3]))}")
    made = sorted(((w.replace("_", "-"), w) for w in source), key=lambda p: -len(p[0]))

    def in_function_proof(token):
        if token in own:
            return respelt(token)
        if token in kit:
            return token
        for old, new in MADE.items():
            token = token.replace(old, new)
        for old, new in made:
            token = re.sub(rf"(?<![A-Za-z0-9]){re.escape(old)}(?![A-Za-z0-9])", new, token)
        return token

    changed = 0
    for f, text in texts.items():
        turn = in_function_proof if is_function_proof(f) else (lambda t: respelt(t) if t in own else t)
        new = "".join(TOKEN.sub(lambda m: turn(m.group(0)), piece) if code else piece for code, piece in pieces(f, text))
        if new != text:
            f.write_text(new)
            changed += 1
    print(f"{len(own)} names respelt, {changed} files changed")


sys.exit(main())
