"""A graph of changes, from a change list that asks for the clock and the missing list of each change, and from the session's answer to it.
Nothing is computed here: what a change's clock is and what is missing stands in the answer."""
from .svg import Drawing, FILLS, INK, MARK, SOFT, wide, wrapped

LANE, STEP, LEFT, TOP, W, H = 150, 270, 110, 116, 190, 66
SAID = ("A box is a change, and an arrow goes to a change that it depends on. Beneath a change: the clock of a tablet that has it, and what that tablet is missing.")


class Change:
    def __init__(self, fields, node):
        self.hash, self.actor, self.seq, self.max_op, self.ops = fields[0], *map(int, fields[1:5])
        self.deps = [] if fields[5] == "-" else fields[5].split(",")
        self.node, self.clock, self.missing = node, "", []


def short(hash_):
    return "H" + hash_[0] if len(set(hash_)) == 1 else hash_[:6]


def read(list_path, answer_path):
    """The changes that were taken in, by hash, with what the answer says of each."""
    asked = [line.split("\t") for line in open(list_path, encoding="ascii").read().splitlines()[2:]]
    told = [line.split("\t") for line in open(answer_path, encoding="ascii").read().splitlines()]
    if len(asked) != len(told) or any(a[0] != t[0] for a, t in zip(asked, told)):
        raise SystemExit(f"{answer_path} is no answer to {list_path}")
    changes = {}
    for a, t in zip(asked, told):
        if a[0] == "add" and t[1] == "0":
            changes[a[1]] = Change(a[1:], len(changes))
        elif a[0] in ("clock", "missing") and a[1] in changes:
            c = changes[a[1]]
            if a[0] == "clock":
                c.clock = t[1]
            else:
                c.missing = [] if t[1] == "-" else t[1].split(",")
    return changes


def draw(list_path, answer_path, title, words, marked=()):
    """`marked` names pairs (change, its actor's preceding one) that no link joins."""
    changes = read(list_path, answer_path)
    actors = 1 + max(c.actor for c in changes.values())
    width = max(LEFT + STEP * len(changes) + 30, wide(title, 18, True) + 60)
    words = [line for text in words for line in wrapped(text, int((width - 40) / wide("x", 13)))]
    d = Drawing(width, TOP + LANE * actors + 14 + 20 * len(words), title)
    d.text(20, 30, title, 18, True)
    for i, line in enumerate(wrapped(SAID, int((width - 40) / wide("x", 12.5)))):
        d.text(20, 54 + 18 * i, line, 12.5, ink=SOFT)
    for a in range(actors):
        y = TOP + LANE * a
        d.box(12, y - 12, width - 24, LANE - 14, FILLS[a % len(FILLS)], "#d5dde5")
        d.text(24, y + H / 2 + 5, f"device {a}", 14, True)
    spot = {h: (LEFT + 20 + STEP * c.node, TOP + LANE * c.actor) for h, c in changes.items()}
    for h, c in changes.items():
        for dep in c.deps:
            (x, y), (tx, ty) = spot[h], spot[dep]
            d.arrow([(x, y + H / 2), (tx + W, ty + H / 2)])
    for later, before in marked:
        (x, y), (tx, ty) = spot[later], spot[before]
        d.arrow([(x, y + H / 2), (tx + W, ty + H / 2)], MARK, True)
        d.text((x + tx + W) / 2, y + H / 2 - 8, "no link", 12, True, MARK, "middle")
    for h, c in changes.items():
        x, y = spot[h]
        d.box(x, y, W, H)
        d.text(x + 10, y + 20, short(h), 15, True)
        d.text(x + W - 10, y + 20, f"node {c.node}", 11, ink=SOFT, anchor="end")
        d.text(x + 10, y + 38, f"sequence {c.seq} of device {c.actor}", 11.5)
        ops = f"ops {c.max_op - c.ops + 1} to {c.max_op}" if c.ops else "no ops"
        d.text(x + 10, y + 55, ops, 11.5, ink=SOFT)
        d.text(x, y + H + 20, f"clock of {short(h)}: {c.clock}", 12, True)
        d.text(x, y + H + 38, "missing: " + (", ".join(short(m) for m in c.missing) or "nothing"), 12, ink=INK)
    for i, line in enumerate(words):
        d.text(20, TOP + LANE * actors + 14 + 20 * i, line, 13)
    return d.done()
