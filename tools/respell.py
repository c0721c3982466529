#!/usr/bin/env python3
"""Respells this repository's own definitions and lemmas: words in snake case, types as they are.

usage: python3 tools/respell.py [--list]      at the top, once, right after port.py

A name that specs/ or proofs/ declare (at the head of a line, as a field, a constructor or a set of rules) is respelled wherever it stands in .antt files, in the clauses of
.rt files and in must-fail edits. Names of Rust, strings, module names and the library's names stay. A dash stays beside a type or a sign.
Names that would fall together stop it, but for those that KEPT gives another spelling.
"""
import collections
import glob
import re
import sys

TOKEN = re.compile(r"[^\s(){}\[\].,;\"@`λ:]+|:[^\s(){}\[\].,;\"@`λ:]+")
HEAD = re.compile(r"^(?:(?:abbrev|unfoldable|opaque|inline|lemma|rewrite|data|record|pub|instance|mutual|module|private|constructor|infixl|infixr) )*([^\s:{}()]+)(?: [^:=]*)? :(?: |$)")
RULES = re.compile(r"^ *(?:pub )?ruleset ([^\s:=]+) =")
INNER = re.compile(r"^ +(?:pub )?([^\s:{}()=]+(?: [^\s:{}()=]+)*) : ")
# names that would fall together with another word, and what they are called instead
KEPT = {
    "is-integer": "is_an_integer",
    "is-key": "is_a_key",
    "is-object": "is_an_object",
    "kind-at": "kind_at_lem",
    "keys-of": "keys_of_lem",
    "size-of": "size_of_lem",
    "end-of": "end_of_lem",
    "whole-at": "whole_at_lem",
    "member-end": "member_end_lem",
    "first-in": "first_in_lem",
    "firsts-in": "firsts_in_lem",
    "scalar-text": "scalar_text_lem",
    "value-at": "value_at_lem",
    "letter-r": "letter_13",
    "bare-value": "bare_value_lem",
    "bare-pairs": "bare_pairs_lem",
    "head-row": "head_row_lem",
    "parent-at": "parent_at_lem",
    "digit-of": "digit_of_lem",
}
# a name of one file's own, beside a definition that takes it
PLACES = {"crates/theorems/specs/Proved.antt": {"text_of": "texts"}}
# lemmas whose names definitions take
LEMMAS = {"far_at": "far_at_lem", "run_end": "run_end_lem", "sign_text": "sign_text_lem"}


def files():
    for kind in ("specs", "proofs"):
        yield from sorted(glob.glob(f"crates/*/{kind}/**/*.antt", recursive=True))


def is_proof(f):
    """Whether f is the proof of a function: what it declares is for itself alone, and most of it answers goals that Rattle names."""
    return f.endswith("/Proof.antt")


def part(p):
    if not p or not p[0].islower():
        return p
    return re.sub(r"(?<=[a-z0-9₀-₉])([A-Z]+)", lambda m: "_" + m.group(1).lower(), p)


def respelled(name):
    if name in KEPT:
        return KEPT[name]
    parts = [part(p) for p in name.split("-")]
    out = parts[0]
    for before, after in zip(parts, parts[1:]):
        plain = before[:1].islower() and (after[:1].islower() or after[:1].isdigit())
        out += ("_" if plain else "-") + after
    return out


def declared(some):
    names = {}
    for f in some:
        with open(f, encoding="utf-8") as text:
            for line in text:
                line = line.split("--")[0].rstrip("\n")
                m = HEAD.match(line)
                if m and is_proof(f) and re.search(r": (tie\.|\{M : Type 1\})", line):
                    continue
                if m and not line.startswith(("use ", "pub mod", "mod ", "infix")):
                    names.setdefault(m.group(1), f)
                m = RULES.match(line)
                if m:
                    names.setdefault(m.group(1), f)
                m = INNER.match(line)
                if m and not line.lstrip().startswith(("let ", "λ")):
                    for n in m.group(1).split():
                        names.setdefault(n, f)
    return names


def library():
    """The names that files of this repository take from std or the kit, and those that Rattle makes of a function."""
    own = tuple(f"Rattle.{folder.split('/')[1]}." for folder in glob.glob("crates/*/"))
    taken = set()
    for f in list(files()) + sorted(glob.glob("crates/*/src/**/*.rt", recursive=True)):
        with open(f, encoding="utf-8") as text:
            for m in re.finditer(r"use ([\w.'·]+)\.\{([^}]*)\}", text.read()):
                if not m.group(1).startswith(own):
                    taken |= {w.split(" as ")[0].strip() for w in m.group(2).split(",")}
    return taken


def tokens(text):
    return TOKEN.findall(text)


def main():
    taken = library()
    lemmas = [f for f in files() if not is_proof(f)]
    names = declared(lemmas)
    turn = {n: respelled(n) for n in names if respelled(n) != n and n not in taken}
    back = collections.defaultdict(set)
    for n, m in turn.items():
        back[m].add(n)
    bad = 0
    for m, ns in sorted(back.items()):
        if m in taken:
            bad += 1
        if len(ns) > 1 or m in names or m in taken:
            print("falls together:", m, *(f"{n} {names[n]}" for n in sorted(ns)), names.get(m, ""), "of the library" if m in taken else "", file=sys.stderr)
    out = {}
    sources = sorted(glob.glob("crates/*/src/**/*.rt", recursive=True)) + sorted(glob.glob("crates/*/must-fail/*.edit"))
    for f in list(files()) + sources:
        with open(f, encoding="utf-8") as text:
            old = text.read()
        own, here = {}, turn
        if is_proof(f):
            own = {n: respelled(n) for n in declared([f]) if respelled(n) != n and n not in taken}
            kept = set(re.findall(r"(?m)^(?:abbrev |pub )*([^\s:]+) : (?:tie\.|\{M)", old))
            here = {n: m for n, m in turn.items() if n not in kept} | own
        pieces = re.split(r'("(?:[^"\\\n]|\\.)*")', old)
        words = set()
        for i in range(0, len(pieces), 2):
            words.update(TOKEN.findall(re.sub(r"use Rattle[\w.']*|--[^\n]*|//[^\n]*", "", pieces[i])))
        if f.endswith(".antt"):
            here = LEMMAS | here | PLACES.get(f, {})
            beside = collections.defaultdict(set)
            for n in words:
                beside[here.get(n, n)].add(n)
            for m, ns in sorted(beside.items()):
                if len(ns) > 1:
                    bad += 1
                    print("stands beside:", m, sorted(ns), f, file=sys.stderr)
        for i in range(0, len(pieces), 2):
            pieces[i] = re.sub(r"(?<!tie\.)(?<![\w'-])" + TOKEN.pattern, lambda m: here.get(m.group(0), m.group(0)), pieces[i])
        new = "".join(pieces)
        if new != old:
            out[f] = new
    if "--list" in sys.argv:
        for n in sorted(turn):
            print(n, turn[n], names[n])
        return
    if bad:
        raise SystemExit(1)
    for f, new in out.items():
        with open(f, "w", encoding="utf-8") as text:
            text.write(new)
    print(f"respell: {len(turn)} names in {len(out)} files")


if __name__ == "__main__":
    main()
