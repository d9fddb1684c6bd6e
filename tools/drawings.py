#!/usr/bin/env python3
"""drawings.py: writes the drawings of docs/ anew: layers.svg from crates.txt, worked.svg and unchained.svg from the lists of examples/ and the session's answers to them,
call.svg. drawings.py --check: whether each is what the script writes; exit status 1 where one is not."""
import os
import sys

sys.dont_write_bytecode = True
ROOT = os.path.dirname(os.path.dirname(os.path.abspath(__file__)))
sys.path.insert(0, os.path.join(ROOT, "tools"))
from draw import call, graphs, layers  # noqa: E402


def example(name):
    return os.path.join(ROOT, "examples", name + ".list"), os.path.join(ROOT, "examples", name + ".answer")


def drawings():
    one, two = "1" * 64, "2" * 64
    return {
        "layers.svg": layers.draw(os.path.join(ROOT, "crates.txt")),
        "worked.svg": graphs.draw(*example("worked-clocks"), "The worked example: who has what, and what is missing", [
            "A clock has an entry for each device: the largest sequence of that device in the history. A change is missing where its sequence is above its device's entry.",
            "So who has H2 has H1 too, which H2 depends on, and is missing H3 alone."]),
        "unchained.svg": graphs.draw(*example("unchained"), "A graph that is not chained: the missing list is not all that lies outside the history", [
            "H2 is the second change of device 0 and does not name the first one. Who has H2 has not seen H1, yet the clock says 2, so nothing counts as missing.",
            "On a chained graph each change names its device's preceding one, and the missing list is exactly what lies outside the history."], [(two, one)]),
        "call.svg": call.draw(ROOT),
    }


def main():
    if sys.argv[1:] not in ([], ["--check"]):
        raise SystemExit(__doc__)
    stale = 0
    for name, text in drawings().items():
        path = os.path.join(ROOT, "docs", name)
        if sys.argv[1:]:
            same = os.path.exists(path) and open(path, encoding="utf-8").read() == text
            stale += not same
            print(f"docs/{name}: " + ("as drawn" if same else "NOT as the script draws it"))
        else:
            with open(path, "w", encoding="utf-8") as f:
                f.write(text)
            print(f"docs/{name}")
    sys.exit(1 if stale else 0)


if __name__ == "__main__":
    main()
