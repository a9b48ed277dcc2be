#!/usr/bin/env python3
"""Respells this repository's own definitions and lemmas in snake case, once, right after the toolchain's port.py.

usage: python3 tools/respell.py [--dry]      at the top of the repository

A definition, lemma, record field or constructor that specs/ or proofs/ declares in lower case with a dash or a capital inside
(`inSet`, `length-toBits`) is written with underscores (`in_set`, `length_to_bits`) wherever its name stands as a whole word: in specs/,
proofs/, the clauses and ghost imports of src/, must-fail edits, and the pages' code. Rust names, strings and inputs keep their spelling.
A lemma that would fall together with a definition gets the ending `_lem`; what else falls together is listed.
"""
import glob
import re
import sys

DECLARED = re.compile(r"(?m)^((?:(?:unfoldable|abbrev|axiom|pub|data|record) )*)([^\s:(){}.,;\-][^\s:(){}.,;]*)(?: [^:\n]*)? :(?= |$)")
FIELD = re.compile(r"(?m)^  +(?:pub )?([^\s:(){}.,;\-][^\s:(){}.,;]*) :(?= |$)")
TOKEN = re.compile(r"[^\s(){}.,;:`\"\[\]]+")
# Names that the toolchain makes and a proof only answers.
MADE = re.compile(r"^(invariant|decreases|loop|returns|overflow|bounds|in)-")
# Names of std that files here import.
STD = {"bit_or"}
# What port.py itself respelled in crates/, for edits and pages.
PORTED = """
after-same afterCall all-back all-there all-true and-both answerOf any-at any-next any-none any-same at-length at-most bits-put block-room body-reads
bodyAt bodyOf both-false both-hold both-left both-ordered both-right both-ways by-kind by-tests bytes-bits bytes-drop bytes-take call-fits caseOf
chain-same clear-spec copied-all copied-more copied-none count-kept countOf digit-lt digits-more drop-bits each-at either-left either-way end-reads
end-refused endBits endOf ended-by eqb-swap field-fits field-lt fieldAt fill-none first-byte first-width gather-none gathered-none getD-tabulate has-
all has-room held-all held-next held-none in-table inSet is-c is-made itemAt kept-next kept-same kindAt kindOf laid-next last-within lastOf length-
front lengthOf lies-in lies-out linkIn lowest-step made-kept more-numbers mul-power n-kept named-here named-new namedIn never-back new-meets new-spec
next-fits no-byte noBlock none-first not-seen number-at number-bit number-size numbers-more on-chain one-form one-later one-less one-more ones-fill
open-spec outside-high outside-low parentIn parentOf part-count partAt passed-none placeIn placed-stage put-front put-in put-next put-right put-spec
put-three rank-most read-back reader-at refusal-is row-at row-before row-fits row-more row-read row-reads row-room row-step rowAt rowIn rowOf rows-
step rowsOf run-ends run-on run-spec same-rest same-row same-size same-word set-below set-next signed-by signed-le slotsOf stateOf step-row step-spec
stepOf stepped-by stepsOf store-spec to-last toBits told-none too-few two-steps value-read viewOf walk-start whole-is whole-word writes-nothing zero-
bits
""".split()
# Inputs of examples, which the pages name.
INPUTS = {"no-log-yet"}
# Parts whose capital is no word boundary.
WHOLE = {"getD": "get_or"}


def snake(name):
    for old, new in WHOLE.items():
        name = re.sub(rf"(?<![A-Za-z]){old}(?![a-z])", new, name)
    name = re.sub(r"(?<=[a-z0-9])([A-Z])", lambda m: "_" + m[1].lower(), name)
    return name.replace("-", "_")


def files(*patterns):
    for p in patterns:
        for f in sorted(glob.glob(p, recursive=True)):
            if "/out/" not in f:
                yield f


def read(f):
    with open(f, encoding="utf-8") as h:
        return h.read()


def code_lines(text, comment):
    """The lines, each as code and comment."""
    for line in text.split("\n"):
        i = line.find(comment)
        yield (line, "") if i < 0 else (line[:i], line[i:])


def renames(antt):
    names = set()
    for f in antt:
        t = "\n".join(c for c, _ in code_lines(read(f), "-- "))
        names |= {m[2] for m in DECLARED.finditer(t)} | {m[1] for m in FIELD.finditer(t)}
    to = {n: snake(n) for n in names if n[0].islower() and not MADE.match(n) and snake(n) != n}
    # A lemma that would have the name of a definition, of the repository or of std, is named after it.
    taken = {new for old, new in to.items() if "-" not in old} | STD
    return {old: new + "_lem" if "-" in old and new in taken else new for old, new in to.items()}


def main(dry):
    antt = list(files("crates/*/specs/**/*.antt", "crates/*/proofs/**/*.antt"))
    rust = list(files("crates/*/src/**/*.rt"))
    edits = list(files("crates/*/must-fail/*.edit", "docs/**/*.edit"))
    pages = list(files("README.md", "docs/*.md", "compare/*.md", "examples/**/*.md", "include/*.h"))
    to = renames(antt)
    by_new = {}
    for old, new in to.items():
        by_new.setdefault(new, []).append(old)
    for new, olds in sorted(by_new.items()):
        if len(olds) > 1:
            print("fall together:", new, "from", ", ".join(olds))
    for f in antt + rust:
        tokens = set()
        for code, _ in code_lines(read(f), "-- " if f.endswith(".antt") else "//"):
            tokens |= set(TOKEN.findall(code))
        for t in sorted(tokens):
            if t in to and to[t] in tokens:
                print(f"beside another: {f}: {t} and {to[t]}")
    if dry:
        return
    word = lambda m: to.get(m[0], m[0])
    # In a comment only a name with a capital inside, or one in backticks, is surely a name.
    capital = {o: n for o, n in to.items() if re.search(r"[a-z][A-Z]", o)}
    for f in antt + rust:
        t, out = read(f), []
        for code, comment in code_lines(t, "-- " if f.endswith(".antt") else "//"):
            comment = re.sub(r"`([^`]+)`", lambda m: "`" + TOKEN.sub(word, m[1]) + "`", comment)
            out.append(TOKEN.sub(word, code) + TOKEN.sub(lambda m: capital.get(m[0], m[0]), comment))
        new = "\n".join(out)
        if new != t:
            open(f, "w", encoding="utf-8").write(new)
    # port.py turns neither edits nor pages.
    paged = {o: n for o, n in (to | {o: snake(o) for o in PORTED}).items() if o not in INPUTS}
    for f in edits:
        t = read(f)
        new = "\n".join(TOKEN.sub(lambda w: paged.get(w[0], w[0]), l) if re.match(r"(old|new):", l) else l for l in t.split("\n"))
        if new != t:
            open(f, "w", encoding="utf-8").write(new)
    for f in pages:
        t = read(f)
        new = re.sub(r"(?s)```.*?```|`[^`\n]+`", lambda m: TOKEN.sub(lambda w: paged.get(w[0], w[0]), m[0]), t)
        if new != t:
            open(f, "w", encoding="utf-8").write(new)
    print(len(to), "names")


main("--dry" in sys.argv)
