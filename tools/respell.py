#!/usr/bin/env python3
"""Brings the names of this repository's definitions, lemmas, fields and constructors to snake case, as today's Rattle spells its own.

usage: tools/respell.py [--check] [FOLDER]

A name is turned where some .antt file of crates/ declares it and it holds a dash or a capital behind a small letter: `settingsFault` and
`settings-fault` become `settings_fault`. Names that begin with a capital are types and modules, and stay. Where two names would fall
together, or the new one already stands in a file with another meaning, LEM and OTHER say what is written in place of it.
It reads crates/, docs/ and README.md; --check only lists the names and what falls together. Run it once, after the kit's script.
"""
import collections
import os
import re
import sys

# a lemma that would get the name of a definition
LEM = "_lem"
# a definition, field or constructor keeps the plain name before a lemma that has it already
OTHER = {"tooLong": "too_long_number"}
for word, lemma in [("byValues", "by_values"), ("goesOn", "goes_on"), ("inConstant", "in_constant"), ("noText", "no_text"), ("oneByte", "one_byte"),
                    ("twoBytes", "two_bytes"), ("fourBytes", "four_bytes"), ("runLength", "run_length"), ("sameText", "same_text")]:
    OTHER |= {word: lemma, lemma: lemma + LEM}

NAME = r"[^\s(){};,.:«»\"]+"
DECLARED = re.compile(rf"(?m)^ *(?:(?:abbrev|unfoldable|pub) +)*({NAME}(?: +{NAME})*) :(?= |$)")
ALIAS = re.compile(rf" as ({NAME})(?=[,}}])")
WORD = re.compile(r"[^\s(){};,.«»\"`\[\]]+")


def turned(name):
    name = re.sub(r"(?<=[a-z0-9])([A-Z])", lambda it: "_" + it[1].lower(), name)
    return name.replace("-", "_")


def is_old(name):
    return name[0].isalpha() and name[0].islower() and bool(re.search(r"[\w']-[\w']|[a-z0-9][A-Z]", name))


def files(top):
    for folder, dirs, names in os.walk(os.path.join(top, "crates")):
        dirs[:] = sorted(d for d in dirs if d not in ("out", "data"))
        for name in sorted(names):
            if name.endswith((".antt", ".rt", ".edit")):
                yield os.path.join(folder, name)


def read(path):
    with open(path, encoding="utf-8") as it:
        return it.read()


def declared(top):
    found = collections.defaultdict(set)
    for path in files(top):
        if path.endswith(".antt") and not path.endswith("Proof.antt"):
            for it in DECLARED.finditer(read(path)):
                for name in it[1].split():
                    found[name].add(path)
        if path.endswith(".antt") and not path.endswith("Proof.antt"):
            # what is bound by a let, a clause or a signature over several lines
            text = read(path)
            found_here = {it[0] for it, in_comment in words(path, text) if not in_comment and re.fullmatch(r"[a-z][a-z0-9]*(?:[A-Z][a-z0-9]*)+'*", it[0])}
            found_here |= set(re.findall(r"(?m)^(?:pub )?([a-z][\w'-]*)$", text))
            for name in found_here:
                found[name].add(path)
        if not path.endswith(".edit"):
            for line in re.findall(r"(?m)^(?:ghost )?use [^\n]*", read(path)):
                for it in ALIAS.finditer(line):
                    found[it[1]].add(path)
    return found


def fields(top):
    """The names that a record of this repository declares: a proof by hand cites those behind a dot."""
    found = set()
    for path in files(top):
        if path.endswith(".antt"):
            inside = False
            for line in read(path).split("\n"):
                if re.match(r" *(pub )?record ", line) and line.endswith(" where"):
                    inside = True
                elif inside and (it := re.match(r" +(?:pub )?([^\s(){};,.:]+) :", line)):
                    found.add(it[1])
                elif not line.startswith(" "):
                    inside = False
    return found


def table(top):
    names = declared(top)
    old = sorted(it for it in names if is_old(it) or it in OTHER)
    new = {it: OTHER.get(it, turned(it)) for it in old}
    groups = collections.defaultdict(list)
    for it in list(names):
        groups[new.get(it, it)].append(it)
    for to, each in sorted(groups.items()):
        if len(each) > 1:
            kept = [it for it in each if it not in new] or [it for it in each if re.search("[a-z0-9][A-Z]", it)]
            for it in each:
                if it not in kept[:1] and it not in OTHER:
                    new[it] = to + LEM
    return names, new


def words(path, text):
    """Each word of a file with its place, without those of comments and strings."""
    if path.endswith(".antt"):
        skip = [it.span() for it in re.finditer(r"--[^\n]*|\"[^\"\n]*\"", text)]
    elif path.endswith(".rt"):
        skip = [it.span() for it in re.finditer(r"//[^\n]*|b?\"(?:[^\"\\\n]|\\.)*\"", text)]
    else:
        skip = [it.span() for it in re.finditer(r"(?m)^(?:#|file:)[^\n]*", text)]
    at = 0
    for it in WORD.finditer(text):
        while at < len(skip) and skip[at][1] <= it.start():
            at += 1
        in_comment = at < len(skip) and skip[at][0] <= it.start()
        yield it, in_comment


def rewritten(path, text, new, own_fields, known):
    out, last = [], 0
    by_hand = path.endswith("Proof.antt")
    for it, in_comment in words(path, text):
        word = it[0]
        if path.endswith(".edit") and word not in new and is_old(word) and turned(word) in known:
            out += [text[last : it.start()], turned(word)]
            last = it.end()
        if word not in new or (path.endswith(".rt") and not is_old(word)):
            continue
        if in_comment and not (re.search("[a-z0-9][A-Z]", word) or text[it.start() - 1] == "`"):
            continue
        if text[it.start() - 1] == "." and (word not in own_fields if by_hand else text[it.end() : it.end() + 1] == "."):
            continue
        out += [text[last : it.start()], new[word]]
        last = it.end()
    return "".join(out) + text[last:]


def main(arguments):
    check = "--check" in arguments
    rest = [it for it in arguments if it != "--check"]
    top = rest[0] if rest else os.path.dirname(os.path.dirname(os.path.realpath(__file__)))
    names, new = table(top)
    own_fields = fields(top)
    backward = collections.defaultdict(set)
    for a, b in new.items():
        backward[b].add(a)
    said = []
    for path in files(top):
        text = read(path)
        here = {it[0] for it, in_comment in words(path, text) if not in_comment}
        for word in sorted(here):
            if word in new and new[word] in here:
                said.append(f"{os.path.relpath(path, top)}: {word} would be {new[word]}, which stands there")
        for to in {new[it] for it in here if it in new}:
            both = backward[to] & here
            if len(both) > 1:
                said.append(f"{os.path.relpath(path, top)}: {sorted(both)} would both be {to}")
    if check:
        for it, to in sorted(new.items()):
            if to != turned(it):
                print(f"{it} -> {to}")
        print("\n".join(said))
        print(f"{len(new)} names of {len(names)}")
        return
    for path in files(top):
        text = read(path)
        now = rewritten(path, text, new, own_fields, names)
        if now != text:
            with open(path, "w", encoding="utf-8") as it:
                it.write(now)
    pages = [os.path.join(top, "README.md")]
    for folder, _, each in os.walk(os.path.join(top, "docs")):
        pages += [os.path.join(folder, it) for it in sorted(each) if it.endswith(".md") and not it.startswith("PORT")]
    for page in pages:
        text = read(page)
        now = re.sub(r"`([^`\n]+)`", lambda it: "`" + WORD.sub(lambda w: new.get(w[0], w[0]), it[1]) + "`", text)
        if now != text:
            with open(page, "w", encoding="utf-8") as it:
                it.write(now)


if __name__ == "__main__":
    main(sys.argv[1:])
