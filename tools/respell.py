#!/usr/bin/env python3
"""Spells the repository's own definitions and lemmas in snake case: run once, at the top, on what port.py made.

A name that specs/ or a lemma file of proofs/ declares gets plain underscores for its humps and dashes: unitState -> unit_state,
unknown-never -> unknown_never. Types keep their capitals; so do the papers' own symbols A, H, K and W and the letters of BitLaws.
Where a law would fall together with the definition that it is about, it ends in _lem, as by-page beside byPage: by_page_lem.
Functions of src/, exported names, strings, inputs and outputs stay. The crate sha1 becomes fips180, since the kit has a library sha1.
Must-fail edits and those of wrong/ are spelled alike, and the names between backticks in comments and pages.
"""

import glob
import os
import re
import subprocess
from collections import defaultdict

NAME = r"[^\s(){}.;,@\"«»\[\]\\]+"
MARKS = r"(?:(?:pub|abbrev|unfoldable|pattern|axiom|opaque|data|record) )*"
DECLARED = re.compile(rf"(?m)^ *{MARKS}({NAME})(?: \{{[^{{}}\n]*\}})*(?: \([^()\n]*\))* :(?: |$)")
# A plain spelling that a parameter beside it has already, or that says something else.
CHOSEN = {"authKey": "auth_key_of", "genKey": "gen_key_of", "Asked-for": "AskedFor"}
# Variables with a hump.
VARIABLES = {"unitTag": "unit_tag", "unitId": "unit_id"}
# Fields of records in these crates keep the plain spelling, though a definition that stands elsewhere has it too: a field is named behind
# a dot or in its record, where no definition is.
FIELDS = {"next_auth": ("units", "runs"), "token_length": ("runs",), "data_out": ("runs",)}
OLD_CRATE, NEW_CRATE = "sha1", "fips180"


def read(path):
    with open(path, encoding="utf-8") as f:
        return f.read()


def write(path, text):
    if read(path) != text:
        with open(path, "w", encoding="utf-8") as f:
            f.write(text)


def found(*patterns):
    return sorted({p for it in patterns for p in glob.glob(it, recursive=True) if os.path.isfile(p) and "/out/" not in p})


def snake(name):
    return re.sub(r"(?<=[a-z0-9])[A-Z]", lambda m: "_" + m[0].lower(), name).replace("-", "_")


def spellings():
    names = set()
    for path in found("crates/*/specs/**/*.antt", "crates/*/proofs/*.antt"):
        names |= set(DECLARED.findall(re.sub(r"--[^\n]*", "", read(path))))
    to = {n: CHOSEN.get(n) or snake(n) for n in names if n in CHOSEN or re.match(r"[KW]-", n) or not n[0].isupper()}
    to = {n: s for n, s in to.items() if n != s}
    taken = defaultdict(list)
    for n in sorted(names | set(to)):
        taken[to.get(n, n)].append(n)
    for s, those in taken.items():
        laws = [n for n in those if "-" in n]
        if len(those) > 1 and laws:
            assert len(laws) == 1 and len(those) == 2, those
            to[laws[0]] = s + "_lem"
    return to | VARIABLES, names


def in_code(text, to):
    return re.sub(NAME, lambda m: to.get(m[0], m[0]), text)


def in_words(text, to, plain):
    """A comment or a page: names with a hump anywhere, names with a dash between backticks alone; those too that port.py respelled."""

    def one(name):
        return to.get(name) or (snake(name) if snake(name) in plain and not name[0].isupper() else name)

    text = re.sub(r"(?<![\w-])[a-z]\w*[A-Z]\w*(?![\w-])", lambda m: one(m[0]), text)
    return re.sub(r"`([^`\n]*)`", lambda m: "`" + re.sub(NAME, lambda k: one(k[0]), m[1]) + "`", text)


def turned(path, text, to, plain):
    comment = "//" if path.endswith(".rt") else "--"
    lines = []
    for line in text.split("\n"):
        code, mark, words = line.partition(comment)
        if path.endswith(".rt") and '"' in line:
            lines.append(line)
        else:
            lines.append(in_code(code, to) + mark + in_words(words, to, plain))
    text = "\n".join(lines)
    text = re.sub(rf"\bRattle\.{OLD_CRATE}\b", f"Rattle.{NEW_CRATE}", text)
    if path.endswith(".rt"):
        text = re.sub(rf"\buse {OLD_CRATE}::", f"use {NEW_CRATE}::", text)
        text = re.sub(rf"(?<![\w:]){OLD_CRATE}::", f"{NEW_CRATE}::", text)
    return text


def edit(text, to, plain):
    lines = []
    for line in text.split("\n"):
        if re.match(r"(old|new): ?", line):
            line = re.sub(r"Rattle·(\w+)·(specs|proofs)\.\2\b", r"Rattle.\1.\2", line)
            line = re.sub(r"Rattle·(\w+)", r"Rattle.\1", line).replace(f"Rattle.{OLD_CRATE}.", f"Rattle.{NEW_CRATE}.")
            line = re.sub(r"\((\w+(?: \.\w+)+)\)", lambda m: m[1].replace(" .", "."), line)
            line = re.sub(r"(?<=\w) \.(?=\w)", ".", line)
            line = re.sub(NAME, lambda m: to.get(m[0]) or (snake(m[0]) if snake(m[0]) in plain and not m[0][0].isupper() else m[0]), line)
        elif re.match(r"(wrong|breaks): ?", line):
            line = in_words(line, to, plain)
        lines.append(line)
    return "\n".join(lines)


def main():
    to, names = spellings()
    plain = {n for n in names if re.fullmatch(r"\w+", n)}
    for path in found("crates/*/specs/**/*.antt", "crates/*/proofs/**/*.antt", "crates/*/src/**/*.rt"):
        write(path, turned(path, read(path), to, plain))
    for field, crates in FIELDS.items():
        for path in found(*(f"crates/{c}/{part}/**/*.antt" for c in crates for part in ("specs", "proofs"))):
            write(path, re.sub(rf"\b{field}_lem\b", field, read(path)))
    for path in found("crates/*/must-fail/*.edit", "wrong/**/*.edit"):
        write(path, edit(read(path), to, plain))
    for field, crates in FIELDS.items():
        for path in found(*(f"{place}/*.edit" for c in crates for place in (f"crates/{c}/must-fail", f"wrong/{c}"))):
            write(path, re.sub(rf"\b{field}_lem\b", field, read(path)))
    for path in found("README.md", "docs/**/*.md"):
        write(path, in_words(read(path), to, plain).replace(f"crates/{OLD_CRATE}", f"crates/{NEW_CRATE}"))
    lines = [re.sub(rf"\b{OLD_CRATE}\b", NEW_CRATE, l) for l in read("crates.txt").split("\n")]
    write("crates.txt", "\n".join(lines))
    for folder in ("crates", "wrong"):
        if os.path.isdir(f"{folder}/{OLD_CRATE}"):
            subprocess.run(["git", "mv", f"{folder}/{OLD_CRATE}", f"{folder}/{NEW_CRATE}"], check=True)


if __name__ == "__main__":
    main()
