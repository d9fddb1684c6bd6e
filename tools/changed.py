#!/usr/bin/env python3
"""The last part of docs/DESIGN-PASS.md: each public function, type, definition and theorem whose text is another since a commit, old and new. changed.py COMMIT prints it;
changed.py COMMIT --write puts it in place of what stands below the page's last heading."""
import glob
import os
import re
import subprocess
import sys
import textwrap

PAGE = "docs/DESIGN-PASS.md"
HEAD = "## Old and new"


def at(commit):
    names = subprocess.run(["git", "ls-tree", "-r", "--name-only", commit, "crates"], capture_output=True, text=True, check=True).stdout.split()
    for n in names:
        if re.search(r"/src/.*\.rt$|/specs/.*\.antt$|/proofs/[^/]*\.antt$", n):
            yield n, subprocess.run(["git", "show", commit + ":" + n], capture_output=True, text=True, check=True).stdout


def here():
    for n in sorted(glob.glob("crates/*/src/**/*.rt", recursive=True) + glob.glob("crates/*/specs/*.antt") + glob.glob("crates/*/proofs/*.antt")):
        yield n, open(n, encoding="utf-8").read()


def code(text):
    """Public functions with their clauses, and public types with their derives."""
    holder = ""
    lines = text.split("\n")
    i = 0
    while i < len(lines):
        line = lines[i]
        m = re.match(r"impl(?:<[^>]*>)? (?:\w+(?:<[^>]*>)? for )?(\w+)", line)
        if m:
            holder = m.group(1) + "::"
        if line == "}":
            holder = ""
        m = re.match(r'(\s*)pub (?:extern "C" )?fn (\w+)', line)
        if m:
            got = [line.strip()]
            j = i
            while not re.match(r"\s*\{$|.*\{$", lines[j]):
                j += 1
                got.append(lines[j].strip())
            yield "fn", holder + m.group(2), " ".join(got).rstrip("{ ").replace("( ", "(").replace(", )", ")")
        m = re.match(r"pub (?:enum|struct) (\w+)", line)
        if m:
            got = [lines[i - 1].strip()] if lines[i - 1].startswith("#[derive") else []
            j = i
            while lines[j] not in ("}",) and not lines[j].endswith(";"):
                got.append(lines[j].strip())
                j += 1
            yield "type", m.group(1), " ".join(g for g in got if not g.startswith("//")) + " }"
        i += 1


def words(text):
    """Definitions whole, theorems by what they state, with the parameters of the modules around them."""
    scope = []
    block = []
    lines = [l for l in text.split("\n")] + [""]
    i = 0
    while i < len(lines):
        line = lines[i]
        indent = len(line) - len(line.lstrip())
        if line.strip() and not line.strip().startswith("--"):
            scope = [s for s in scope if s[0] < indent]
            m = re.match(r"\s*module (?:_ )?(.*) where$", line)
            if m:
                scope.append((indent, m.group(1)))
                i += 1
                continue
            m = re.match(r"\s*(abbrev |unfoldable )?(pub )?(record |data )?([A-Za-z][^\s(:{]*)(?: [({].*)? :(?: |$)", line)
            if m and not line.strip().startswith(("use ", "pub use ", "pub mod ")):
                kind = "definition" if m.group(1) or m.group(3) else "theorem"
                name = m.group(4)
                got = [line.strip()]
                j = i + 1
                while j < len(lines) and lines[j].strip():
                    deeper = len(lines[j]) - len(lines[j].lstrip())
                    if kind == "theorem" and deeper <= indent:
                        break
                    if deeper < indent or (deeper == indent and re.match(r"\s*(abbrev |unfoldable )?(pub )?(record |data )?([A-Za-z][^\s(:{]*)(?: [({].*)? :(?: |$)", lines[j])):
                        break
                    if not lines[j].strip().startswith("--"):
                        got.append(lines[j].strip())
                    j += 1
                around = " ".join(s[1] for s in scope)
                if m.group(2) or kind == "definition":
                    yield kind, name, (around + " | " if around else "") + " ".join(got)
                i = j
                continue
        i += 1


def table(files):
    found = {}
    for path, text in files:
        crate = path.split("/")[1]
        if crate in ("changegraph", "session_face"):
            continue
        for kind, name, said in code(text) if path.endswith(".rt") else words(text):
            if "/proofs/" in path and kind == "definition":
                continue
            said = re.sub(r"\s+", " ", said)
            found.setdefault((crate, kind, name), []).append(said)
    return found


def shown(sign, said):
    return "\n".join(textwrap.wrap(said, 140, initial_indent=sign + " ", subsequent_indent=sign + "     ", break_long_words=False, break_on_hyphens=False))


def page(commit):
    old, new = table(at(commit)), table(here())
    out = []
    for title, kind in (("Public functions", "fn"), ("Public types", "type"), ("Definitions", "definition"), ("Theorems", "theorem")):
        keys = sorted(k for k in set(old) | set(new) if k[1] == kind and old.get(k) != new.get(k))
        gone = [k for k in keys if k not in new]
        come = [k for k in keys if k not in old]
        both = [k for k in keys if k in old and k in new]
        out.append("### %s: %d are another, %d went, %d came" % (title, len(both), len(gone), len(come)))
        crate = None
        for k in keys:
            if k[0] != crate:
                if crate:
                    out.append("```")
                crate = k[0]
                out.append("\n`%s`\n\n```" % crate)
            before = [s for s in old.get(k, []) if s not in new.get(k, [])]
            after = [s for s in new.get(k, []) if s not in old.get(k, [])]
            out.extend(shown("-", s) for s in before)
            out.extend(shown("+", s) for s in after)
        if crate:
            out.append("```")
        out.append("")
    return "\n".join(out)


def main():
    text = page(sys.argv[1])
    if sys.argv[2:] == ["--write"]:
        whole = open(PAGE, encoding="utf-8").read()
        cut = whole.index(HEAD)
        start = whole.index("\n### ", cut)
        open(PAGE, "w", encoding="utf-8").write(whole[: start + 1] + text.rstrip() + "\n")
    else:
        print(text)


main()
