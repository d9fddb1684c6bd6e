#!/usr/bin/env python3
"""documents.py: no line of README.md, docs/ and the other READMEs is above 200 characters, each file that they link to exists, and each theorem that docs/DEMANDS.md names is
defined in the file beside it. Prints what is wrong; exit status 1 where anything is."""
import glob
import os
import re
import sys

ROOT = os.path.dirname(os.path.dirname(os.path.abspath(__file__)))


def wrong(path):
    where = os.path.relpath(path, ROOT)
    for number, line in enumerate(open(path, encoding="utf-8"), 1):
        if len(line.rstrip("\n")) > 200:
            yield f"{where}:{number}: {len(line) - 1} characters"
        for target in re.findall(r"\]\(([^)#]+)[^)]*\)", line):
            if "://" not in target and not os.path.exists(os.path.join(os.path.dirname(path), target)):
                yield f"{where}:{number}: no such file: {target}"


def defined(name, path):
    """Whether the file of crates/ has a definition, theorem or function of that name."""
    try:
        text = open(os.path.join(ROOT, "crates", path), encoding="utf-8").read()
    except FileNotFoundError:
        return False
    return re.search(r"^ *(?:unfoldable |abbrev )?(?:pub )?(?:record |data |extern \"C\" fn )*" + re.escape(name) + r"(?: .*)?[ (:]", text, re.M) is not None


def misplaced():
    """The rows of docs/DEMANDS.md: names, and the file in which they stand, either `in` a cell or in the cell after it."""
    for number, line in enumerate(open(os.path.join(ROOT, "docs", "DEMANDS.md"), encoding="utf-8"), 1):
        cells = [c.strip() for c in line.strip().strip("|").split("|")]
        for cell, after in zip(cells, cells[1:] + [""]):
            files = re.findall(r"`([a-z_]+/[^`]*\.(?:antt|rt))`", after)
            names, beside = re.findall(r"`([^`/ ]+)`", cell), re.findall(r" in `([a-z_]+/[^`]*\.(?:antt|rt))`", cell)
            if beside:
                files = beside
            elif not files or not re.fullmatch(r"(?:`[^`]+`(?:, )?)+", after):
                continue
            for name in names:
                if not any(defined(name, f) for f in files):
                    yield f"docs/DEMANDS.md:{number}: {name} is not in {', '.join(files)}"


def main():
    paths = sorted(glob.glob(os.path.join(ROOT, "*.md")) + glob.glob(os.path.join(ROOT, "*", "*.md")) + glob.glob(os.path.join(ROOT, "docs", "*", "*.md")))
    paths = [p for p in paths if not p.startswith(os.path.join(ROOT, "target"))]
    found = [w for p in paths for w in wrong(p)] + list(misplaced())
    print("\n".join(found + [f"documents: {len(paths)} read, {len(found)} wrong"]))
    sys.exit(1 if found else 0)


if __name__ == "__main__":
    main()
