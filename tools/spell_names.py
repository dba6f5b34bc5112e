#!/usr/bin/env python3
"""Brings the names of definitions and lemmas to Rattle's spelling: words in snake case, and a prime as an apostrophe.

usage: spell_names.py [--check] FOLDER    FOLDER is the top of a checkout in which port.py has run

A name is turned where an .antt file of crates/ declares it (a definition, a lemma, a record's field, a let, a parameter) and it has a dash, a
capital behind its first letter, or a prime. Names that the kit declares stay. A comment is left alone, but for what stands in backticks.
Where a definition and a lemma would get one name, the definition has it, and the lemma ends in _lem; what else would fall together stands in OTHERWISE.
A name behind a dot is a field or a step of a proof, which gets no _lem. Run it once.
"""
import os
import re
import sys

NAME = r"[^\W\d][\w'′₀-₉]*(?:-[\w'′₀-₉]+)*"
TOKEN = re.compile(r"(?<![\w'′-])" + NAME)
DECLARED = re.compile(r"^\s*(?:(?:abbrev|unfoldable|pub|record|data|let)\s+)*(" + NAME + r")(?:\s*\{[^}]*\}|\s*\([^)]*\))*\s*:(?![:=])")
LET = re.compile(r"\blet\s+(" + NAME + r")\s*[:=]")
PARAMETERS = re.compile(r"[({]((?:" + NAME + r"\s+)+):")
USE = re.compile(r"^\s*(?:pub )?(?:ghost )?use ([\w.+'-]+)\.\{(.*)\};?\s*$")

# Parameters, fields and local values that would get the name of a definition.
OTHERWISE = {
    "in-record": "within_record",
    "is-cryptoApi": "is_api",
    "key-bits": "bits_of_key",
    "keys-by": "keys_are",
    "of-sheets": "for_sheets",
    "passes-by": "passes_is",
    "plain_by": "plain_is",
    "same-facts": "facts_same",
}
OTHERWISE_IN = {("sealing", "well-formed"): "password_well_formed"}
# Lemmas that have the spelling already, as port.py turned them, and the name that a definition gets.
LEMMAS = {"by_place", "in_order", "plain_at", "same_size"}
# Parameters and fields that stand where the definition of that name is not used.
APART = {"key_of", "block_keys", "key_bits", "key_size", "start_of", "length_of", "by_id"}


def files(top, ending):
    for folder, folders, names in os.walk(os.path.join(top, "crates")):
        folders[:] = sorted(f for f in folders if f != "out")
        for name in sorted(names):
            if name.endswith(ending):
                yield os.path.join(folder, name)


def split_comment(line, mark):
    at = line.find(mark)
    return (line, "") if at < 0 else (line[:at], line[at:])


def is_odd(name):
    return name[0].islower() and ("-" in name or "′" in name or re.search(r"[a-z0-9][A-Z]", name) is not None)


def respelled(name):
    name = re.sub(r"([a-z0-9])([A-Z])", lambda m: m.group(1) + "_" + m.group(2).lower(), name.replace("-", "_").replace("′", "'"))
    return name


def main(argv):
    check = "--check" in argv
    top = [a for a in argv if a != "--check"][0]
    own = set(os.listdir(os.path.join(top, "crates")))
    declared, imported = set(), set()
    for path in files(top, ".antt"):
        for line in open(path, encoding="utf-8"):
            line = split_comment(line, "--")[0]
            use = USE.match(line)
            if use:
                parts = use.group(1).split(".")
                if not (parts[0] == "Rattle" and parts[1] in own):
                    imported |= {n.strip().split(" as ")[0] for n in use.group(2).split(",")}
                continue
            found = DECLARED.match(line)
            declared |= {found.group(1)} if found else set()
            declared |= set(LET.findall(line))
            for names in PARAMETERS.findall(line):
                declared |= set(names.split())
    table = {n: respelled(n) for n in sorted(declared) if is_odd(n) and n not in imported}
    by_new = {}
    for old, new in table.items():
        if old not in OTHERWISE:
            by_new.setdefault(new, []).append(old)
    lemmas = {n: n + "_lem" for n in LEMMAS}
    for new, olds in sorted(by_new.items()):
        definitions = [o for o in olds if "-" not in o]
        if len(definitions) > 1:
            print(f"falls together: {', '.join(olds)} -> {new}")
            return 1
        if definitions or new in declared:
            lemmas |= {o: new + "_lem" for o in olds if "-" in o}
            if new in declared and new not in LEMMAS | APART | set(OTHERWISE):
                print(f"stands already: {', '.join(olds)} -> {new}")
                return 1
    if check:
        print(f"{len(table)} names; to _lem: {', '.join(sorted(lemmas))}")
        return 0
    for ending, mark in ((".antt", "--"), (".rt", "//"), (".edit", None)):
        for path in files(top, ending):
            crate = os.path.relpath(path, os.path.join(top, "crates")).split(os.sep)[0]

            def turn(m):
                name, dotted = m.group(0), m.string[m.start() - 1 : m.start()] == "."
                if (crate, name) in OTHERWISE_IN:
                    return OTHERWISE_IN[(crate, name)]
                if name in OTHERWISE and not (name == "key-bits" and dotted):
                    return OTHERWISE[name]
                if name in lemmas and not dotted:
                    return lemmas[name]
                return table.get(name, name)

            text = open(path, encoding="utf-8").read()
            lines = []
            for line in text.split("\n"):
                code, comment = split_comment(line, mark) if mark else (line, "")
                lines.append(TOKEN.sub(turn, code) + re.sub(r"`[^`]*`", lambda m: TOKEN.sub(turn, m.group(0)), comment))
            after = "\n".join(lines)
            if after != text:
                open(path, "w", encoding="utf-8").write(after)
    print(f"{len(table)} names turned, {len(lemmas)} of them to _lem")
    return 0


if __name__ == "__main__":
    raise SystemExit(main(sys.argv[1:]))
