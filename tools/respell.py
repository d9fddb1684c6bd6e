#!/usr/bin/env python3
"""Spells the repository's own definitions and lemmas in snake case, once, after the kit's port.py: 'sameHash' and 'hash-long' become 'same_hash' and 'hash_long'.

usage: python3 tools/respell.py [--check] [--table]        at the top of the repository

A name is the repository's own where a file below crates/*/specs or crates/*/proofs declares it. Types, modules and what Rattle makes keep their names, and so does
a name in a file that imports it from a library. Behind a dot only a field of one of the repository's records turns. Where two names would fall together,
OTHER says what the one becomes. It turns .antt and .rt files, and code spans of README.md and docs/. --check writes nothing; --table prints old and new names.
It lists names that fall together somewhere, or meet another word of a file ('meets:'), and ends with status 1 where there are any. Those that it lists were looked at one by one:
a function beside the definition that it mirrors, a word of a path, or names that no file has both of.
"""
import collections
import glob
import os
import re
import sys

WORD = r"[^\s(){}.;,@\"«»`]+"
KEY = set("pub unfoldable abbrev private ghost open data record mod use where with mutual let".split())
# Two names that would fall together: the lemma gets _lem, the field says what it is.
OTHER = {
    # a lemma beside the definition that it is about
    "actors-word": "actors_word_lem",
    "add-tables": "add_tables_lem",
    "by-kind": "by_kind_lem",
    "deps-at": "deps_at_lem",
    "find-from": "find_from_lem",
    "first-line": "first_line_lem",
    "handed-number": "handed_number_lem",
    "hex-digit": "hex_digit_lem",
    "is_digit": "is_digit_lem",
    "judged-number": "judged_number_lem",
    "judged-text": "judged_text_lem",
    "listed-number": "listed_number_lem",
    "merge-done": "merge_done_lem",
    "nodes-from": "nodes_from_lem",
    "owner-text": "owner_text_lem",
    "part_length": "part_length_lem",
    "pushed-number": "pushed_number_lem",
    "range-of": "range_of_lem",
    "released-number": "released_number_lem",
    "same-list": "are_same",
    "unknown-from": "unknown_from_lem",
    "yes_or_no": "yes_or_no_lem",
    # two definitions
    "actorLow": "actor_is_low",
    "all-hashes": "all_known_hashes",
    "change-of": "change_of_columns",
    "changeRoom": "change_room_of",
    "deps-of": "deps_of_columns",
    "edgeRoom": "edge_room_of",
    "first-unknown": "first_unknown_place",
    "hasActorSeq": "has_actor_seq_in",
    "hashIn": "hash_in_command",
    "hashesIn": "hashes_in_bytes",
    "hashesOf": "hashes_of_members",
    "headIs": "column_head_is",
    "headsRight": "column_heads_right",
    "howMany": "how_many_hashes",
    "in-range": "is_in_range",
    "opsRight": "column_ops_right",
    "queue-of": "store_queue",
}
CHAIN = r"[^\s(){};,@\"«»`]*$"
# What a call's step has behind its name; there the name is a function's.
STEP = re.compile(r"\.(ensures|requires|result|new|last|kept|given|exit|entry|type_inv|auto|lifetimes|inv)\b")


def snake(name):
    words = re.sub(r"(?<=[a-z0-9])[A-Z]", lambda m: "_" + m[0].lower(), name)
    return words.replace("-", "_")


def code_of(text):
    return re.sub(r"--[^\n]*", "", text)


def files(kind):
    out = []
    for folder, dirs, names in os.walk("crates"):
        dirs[:] = sorted(d for d in dirs if d != "out")
        out += [os.path.join(folder, n) for n in sorted(names) if n.endswith(kind)]
    return out


def declared(text):
    """The names that a file declares, and of these the fields of its records."""
    names, fields, inside = set(), set(), None
    for line in code_of(text).split("\n"):
        if not line.strip():
            continue
        depth = len(line) - len(line.lstrip())
        if inside is not None and depth <= inside:
            inside = None
        m = re.match(rf" *((?:{WORD} +)+):(?= |$)", line)
        if m:
            here = {w for w in m[1].split() if w not in KEY and re.search("[A-Za-z]", w)}
            names |= here
            if inside is not None and depth > inside:
                fields |= here
        if re.match(r" *(?:pub )?(?:abbrev )?(?:pub )?record\b.*\bwhere\s*$", line):
            inside = depth
    return names, fields


def of_libraries(text, crates):
    """The names that a file imports from a library."""
    out = set()
    for path, items in re.findall(r"\buse ([\w.+-]+)\.\{([^}]*)\}", text):
        steps = path.split(".")
        own = steps[0] == "package" or steps[0] == "Rattle" and len(steps) > 1 and steps[1] in crates
        if not own:
            for item in items.split(","):
                out |= set(item.split()[-1:])
    return out


def main(argv):
    crates = {os.path.basename(os.path.dirname(os.path.dirname(p))) for p in glob.glob("crates/*/src/*.rt")}
    texts = {p: open(p, encoding="utf-8").read() for p in files((".antt", ".rt"))}
    names, fields = set(), set()
    for p, t in texts.items():
        if p.endswith(".antt"):
            n, f = declared(t)
            names |= n
            fields |= f
    table = {n: snake(n) for n in names if not n[0].isupper()}
    table.update({old: new for old, new in OTHER.items() if old in names})
    table = {old: new for old, new in table.items() if old != new}
    if "--table" in argv:
        for old in sorted(table):
            print(f"{old}\t{table[old]}")
        return 0
    together = collections.defaultdict(list)
    for n in names:
        together[table.get(n, n)].append(n)
    bad = [f"falls together: {new}: {' '.join(sorted(olds))}" for new, olds in sorted(together.items()) if len(olds) > 1]
    word = re.compile(WORD)
    changed = 0
    for p, t in texts.items():
        if p.endswith(".antt"):
            kept = re.compile(r"--[^\n]*|\"(?:[^\"\\\n]|\\.)*\"")
        else:
            kept = re.compile(r"//[^\n]*|b?\"(?:[^\"\\]|\\.)*\"")
        libraries = of_libraries(t, crates)
        own = {n: new for n, new in table.items() if n not in libraries}
        modules = {"Rattle", "package", *re.findall(r"\buse (?:Rattle|package)\.[\w.+-]*\.specs\.[\w.+-]+ as (\S+)", t)}
        before = set(word.findall(code_of(t))) - own.keys()
        for new in {own[n] for n in word.findall(code_of(t)) if n in own} & before:
            bad.append(f"meets: {p}: {new}")

        def turned(text):
            def one(m):
                w = m[0]
                if w not in own:
                    return w
                if m.start() and text[m.start() - 1] == ".":
                    head = re.search(CHAIN, text[: m.start()])[0].split(".")[0]
                    if head not in modules and (w not in fields or STEP.match(text[m.end() :])):
                        return w
                return own[w]

            return word.sub(one, text)

        def comment(text):
            text = re.sub(r"`[^`\n]*`", lambda m: turned(m[0]), text)
            return re.sub(rf"(?<![\w-])[a-z][a-z0-9]*(?:[A-Z][a-z0-9]*)+(?![\w-])", lambda m: own.get(m[0], m[0]), text)

        out, at = [], 0
        for m in kept.finditer(t):
            out.append(turned(t[at : m.start()]))
            out.append(comment(m[0]) if m[0][:2] in ("--", "//") else m[0])
            at = m.end()
        out.append(turned(t[at:]))
        new = "".join(out)
        if new != t:
            changed += 1
            if "--check" not in argv:
                open(p, "w", encoding="utf-8").write(new)
    for p in ["README.md", *sorted(glob.glob("docs/*.md"))]:
        t = open(p, encoding="utf-8").read()
        new = re.sub(r"`[^`\n]*`", lambda m: word.sub(lambda w: table.get(w[0], w[0]), m[0]), t)
        if new != t:
            changed += 1
            if "--check" not in argv:
                open(p, "w", encoding="utf-8").write(new)
    print("\n".join(bad))
    print(f"respell: {len(table)} names, {changed} files, {len(bad)} places to look at")
    return 1 if bad else 0


if __name__ == "__main__":
    raise SystemExit(main(sys.argv[1:]))
