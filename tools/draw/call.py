"""The way of one C call down to its core, and the definition that each step's promise cites. Every name is looked up in the sources, so the drawing cannot outlive them."""
import os
import re

from .svg import Drawing, FILLS, MARK, SOFT

# what runs: crate, function, words; what refuses there; what its promise cites: file below crates/, name, words
STEPS = [
    ("hub_missing", "cg_missing", "called by C; unpacks the edge records, asks, answers", "", "hub_missing/specs/Operations.antt", "MissingFrom", "what the call promises: number, buffer, place"),
    ("hub_answer", "valid_tables", "the lent tables, where they are valid", "1 too many edges", "edges/specs/Edges.antt", "lent", "the tables that the lent records say"),
    ("cache", "valid", "the check of all that is lent", "1 the tables are not valid", "tables/specs/Valid.antt", "Valid", "valid tables, word by word"),
    ("missing", "get_hashes", "the core: requires valid tables", "2 no list of hashes", "missing/specs/Missing.antt", "missing_told", "the answer, by the paper's missing (paper/specs/Graph.antt)"),
    ("list_clock", "list_clock", "the clock of the have-list", "", "list_clock/specs/Clocks.antt", "Entries", "the entries, by the paper's clock (paper/specs/Graph.antt)"),
    ("missing", "above_into", "counts, then writes the hashes in node order", "15 short buffer", "missing/specs/Missing.antt", "above_at", "over tables the paper's above (paper/specs/Graph.antt)"),
    ("hub_answer", "listed", "the number of the answer, and its length told", "", "hub_answer/specs/Asks.antt", "reply_number", "of a reply the paper's number (paper/specs/Numbers.antt)"),
]
DEPTH = [0, 1, 2, 1, 2, 2, 1]


def checked(root):
    for crate, function, _, _, path, name, means in STEPS:
        source = open(os.path.join(root, "crates", crate, "src", "lib.rt"), encoding="utf-8").read()
        if not re.search(rf"\bfn {function}[(<]", source):
            raise SystemExit(f"tools/draw/call.py: {crate} has no function {function}")
        for word, file in [(name, path)] + re.findall(r"the paper's (\w+) \((.*?)\)", means):
            spec = open(os.path.join(root, "crates", file), encoding="utf-8").read()
            if not re.search(rf"pub (record )?{re.escape(word)} ", spec):
                raise SystemExit(f"tools/draw/call.py: {file} has no definition {word}")


def draw(root):
    checked(root)
    left, right, high, top = 470, 430, 62, 96
    d = Drawing(70 + left + 170 + right + 24, top + high * len(STEPS) + 40, "From a C call to the core and its definition")
    d.text(24, 32, "From a C call to the core and its definition: cg_missing", 18, True)
    d.text(24, 56, "Left, what runs, callers above what they call; right, what each promise cites, down to the paper. Red: the number that is answered there, with nothing changed.", 12.5, ink=SOFT)
    d.text(24, 84, "code: crates/…/src/lib.rt", 13, True)
    d.text(70 + left + 170, 84, "definition: crates/…", 13, True)
    spots = []
    for i, (crate, function, words, refusal, path, name, means) in enumerate(STEPS):
        x, y = 24 + 34 * DEPTH[i], top + high * i
        d.box(x, y, left - 20, high - 14, FILLS[DEPTH[i]])
        d.text(x + 12, y + 19, f"{crate}::{function}", 13.5, True)
        d.text(x + 12, y + 37, words, 12, ink=SOFT)
        if refusal:
            d.text(x + left - 32, y + 37, refusal, 12, True, MARK, "end")
        rx = 70 + left + 170
        d.box(rx, y, right, high - 14, "#fffdf4")
        d.text(rx + 12, y + 19, f"{name}", 13.5, True)
        d.text(rx + right - 12, y + 19, path, 11.5, ink=SOFT, anchor="end")
        d.text(rx + 12, y + 37, means, 12, ink=SOFT)
        d.arrow([(x + left - 20, y + (high - 14) / 2), (rx, y + (high - 14) / 2)], dashed=True)
        spots.append((x, y))
        if i:
            caller = max(j for j in range(i) if DEPTH[j] < DEPTH[i])
            px, py = spots[caller]
            d.arrow([(px + 16, py + high - 14), (px + 16, y + 24), (x, y + 24)])
    return d.done()
