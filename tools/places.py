#!/usr/bin/env python3
"""The places that docs/DESIGN-PASS.md counts, one line for each: places.py [--list POINT] [COMMIT]. Without a commit it reads the files as they lie here."""
import collections
import glob
import os
import re
import subprocess
import sys

SIX = ["hashes", "nodes", "targets", "nexts", "clocks", "counts"]
BY_HAND = (
    "same_bytes same_at less_at compare larger least wide bit both copy shift clear clear_marks zero_all put_zeros put_bytes put_row row_is number \\w+_number "
    "range_of is_listed put_hash told_of count_of unknown_of"
).split()


def texts(commit, kind):
    """The files of crates/*/src or crates/*/proofs, by path."""
    if commit is None:
        paths = glob.glob("crates/*/%s/**/*" % kind, recursive=True)
        return {p: open(p).read() for p in paths if os.path.isfile(p)}
    names = subprocess.run(["git", "ls-tree", "-r", "--name-only", commit, "crates"], capture_output=True, text=True, check=True).stdout.split()
    names = [n for n in names if n.split("/")[2] == kind]
    out = {}
    for n in names:
        out[n] = subprocess.run(["git", "show", commit + ":" + n], capture_output=True, text=True, check=True).stdout
    return out


def functions(text):
    """(name, parameters, result, body) of each function of a file."""
    for m in re.finditer(r"(?m)^ *(?:pub )?(?:extern \"C\" )?fn (\w+)(?:<[^>]*>)?\(", text):
        i, depth = m.end(), 1
        while depth:
            depth += (text[i] == "(") - (text[i] == ")")
            i += 1
        parameters = re.sub(r"\s+", " ", text[m.end() : i - 1]).strip().rstrip(",")
        result = re.match(r" -> ([^\n{]*)", text[i:])
        end = re.search(r"(?m)^ *\}\n", text[i:])
        indent = re.match(r" *", m.group(0)).group(0)
        stop = re.search(r"(?m)^%s\}" % indent, text[i:])
        body = text[i : i + stop.end()] if stop else ""
        start = re.search(r"(?m)^%s\{|\{\n" % indent, body)
        yield m.group(1), parameters, result.group(1).strip() if result else "", body[start.start() :] if start else body


def places(commit):
    found = collections.OrderedDict()

    def put(point, place):
        found.setdefault(point, []).append(place)

    sources = texts(commit, "src")
    bodies = collections.defaultdict(list)
    for path, text in sorted(sources.items()):
        crate = path.split("/")[1]
        for m in re.finditer(r"(?m)^ *(?:pub )?enum (\w+)", text):
            put("1 own enums", crate + "::" + m.group(1))
        for m in re.finditer(r"(?m)^ *(?:while|loop)\b.*|^.* = (?:'\w+: )?loop \{|^ *'\w+: (?:while|loop)\b.*", text):
            put("3 loops by hand", crate + ":" + str(text.count("\n", 0, m.start()) + 1))
        for name, parameters, result, body in functions(text):
            here = crate + "::" + name
            taken = [p.split(":")[0].strip() for p in parameters.split(",") if ":" in p]
            if re.fullmatch("|".join(BY_HAND), name):
                put("4 by hand", here)
            if [x for x in taken if x in SIX] == SIX:
                put("5 six tables", here)
            if re.search(r"hash: &\[u8\], (?:actor|key): u64, seq: u64", parameters):
                put("5 a change in six parameters", here)
            if re.search(r"hashes: &(?:mut )?\[u8\], numbers: &(?:mut )?\[u64\]", parameters):
                put("5 waiting records", here)
            if re.search(r"ids: &\[u8\], actors: &\[u64\]", parameters):
                put("5 columns", here)
            if re.search(r"&(?:mut )?\[\w+\], (?:n|m|c|r|e|w|count|len|listed): (?:usize|u32)", parameters):
                put("6 a length beside", here)
            if re.search(r"_(?:checked|told|by)$", name):
                put("7 the same step but for what is asked", here)
            if result in ("u32", "usize", "u8", "u64") and re.search(r"=> \d+,", body):
                put("1 numbers of kinds", here)
            plain = re.sub(r"//[^\n]*", "", body)
            words = {}
            plain = re.sub(r"\b[a-zA-Z_]\w*\b", lambda w: words.setdefault(w.group(0), "v%d" % len(words)), plain)
            plain = re.sub(r"\s+", " ", plain)
            if len(plain) > 60:
                bodies[plain].append(here)
    for group in bodies.values():
        if len(group) > 1:
            put("2 twins", " = ".join(group))
    proofs = texts(commit, "proofs")
    for path in sorted(proofs):
        if path.endswith("/Proof.antt"):
            put("8 proofs that walk", path)
        if path.endswith("/Answers.antt"):
            for m in re.finditer(r"(?m)^pub (\S+) : goal\.", proofs[path]):
                put("8 answers", path.split("/")[1] + "::" + path.split("/")[-2] + ":" + m.group(1))
    found["8 lines of proofs"] = [""] * sum(t.count("\n") for t in proofs.values())
    return found


def main():
    args = sys.argv[1:]
    shown = None
    if args[:1] == ["--list"]:
        shown = args[1]
        args = args[2:]
    for point, where in sorted(places(args[0] if args else None).items()):
        print("%5d  %s" % (len(where), point))
        if shown and point.startswith(shown):
            for w in where:
                print("       " + w)


main()
