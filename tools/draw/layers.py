"""The layers of the house, from crates.txt: a group is a band, and stands above all groups that its crates cite."""
from .svg import Drawing, FILLS, SOFT, wide, wrapped

COLUMN, ROW, GAP, EDGE = 290, 46, 26, 14


class Group:
    def __init__(self, name, words):
        self.name, self.words, self.crates = name, words, []


def read(path):
    """Groups in the file's order, each crate with its purpose and what it cites."""
    groups, purpose = [], ""
    for line in open(path, encoding="utf-8"):
        line = line.rstrip("\n")
        if line.startswith("## "):
            name, _, words = line[3:].partition(": ")
            groups.append(Group(name, words))
        elif line.startswith("#"):
            purpose = line[1:].strip()
        elif line.strip():
            crate, _, cited = line.partition(":")
            crate = crate.split()[0]  # a static library's line has a word more
            if not groups or not purpose:
                raise SystemExit(f"crates.txt: {crate} stands in no group, or has no line on what it is for")
            groups[-1].crates.append((crate, purpose, cited.split()))
            purpose = ""
    return groups


def levels(groups):
    """Each group's level, and the groups that it cites directly: not by way of another that it cites."""
    home = {c: g.name for g in groups for c, _, _ in g.crates}
    cites = {g.name: {home[d] for _, _, ds in g.crates for d in ds if d in home} - {g.name} for g in groups}
    level = {}
    for g in groups:
        later = [n for n in cites[g.name] if n not in level]
        if later:
            raise SystemExit(f"crates.txt: the group {g.name} cites {later[0]}, which stands after it")
        level[g.name] = 1 + max((level[n] for n in cites[g.name]), default=-1)

    def reached(name):
        return cites[name].union(*(reached(n) for n in cites[name])) if cites[name] else set()
    direct = {n: {m for m in ms if not any(m in reached(o) for o in ms - {m})} for n, ms in cites.items()}
    return level, direct


def draw(path):
    groups = read(path)
    level, direct = levels(groups)
    rows = [[g for g in groups if level[g.name] == k] for k in range(max(level.values()), -1, -1)]
    wide = 5                                    # columns of crates on a full row
    shape = {}
    for row in rows:
        count = {g.name: len(g.crates) for g in row}
        columns = {g.name: 1 for g in row}
        while sum(columns.values()) < wide:     # a column more for the group that is the highest
            tall = max(row, key=lambda g: (count[g.name] / columns[g.name], count[g.name]))
            columns[tall.name] += 1
        for g in row:
            n = columns[g.name]
            shape[g.name] = (n, -(-count[g.name] // n))
    width = wide * COLUMN + (max(len(r) for r in rows) - 1) * GAP + 2 * EDGE + 2 * GAP
    heights = [max(shape[g.name][1] for g in row) * ROW + 52 for row in rows]
    d = Drawing(width, sum(heights) + 2 * EDGE * len(rows) + GAP * (len(rows) - 1) + 60, "The crates in layers")
    d.text(GAP, 30, "The crates in layers: a band cites those that its arrows point to, and what these cite", 18, True)
    y, place = 48, {}
    for row, height in zip(rows, heights):
        x = GAP
        room = width - 2 * GAP - (len(row) - 1) * GAP
        for g in row:
            w = room * shape[g.name][0] / sum(shape[o.name][0] for o in row)
            place[g.name] = (x, y, w, height)
            x += w + GAP
        y += height + 2 * EDGE + GAP
    for i, g in enumerate(groups):
        band(d, g, place[g.name], shape[g.name], FILLS[i % len(FILLS)])
    bands = [[place[g.name] for g in row] for row in rows]
    for name, targets in direct.items():
        for k, other in enumerate(sorted(targets)):
            arrow(d, place[name], place[other], (k + 1) / (len(targets) + 1), bands)
    return d.done()


def band(d, group, place, shape, fill):
    x, y, w, h = place
    d.box(x, y, w, h, fill)
    d.text(x + 12, y + 22, group.name, 16, True)
    at = x + 30 + wide(group.name, 16, True)
    if at + wide(group.words, 12) < x + w:
        d.text(at, y + 22, group.words, 12, ink=SOFT)
    column = (w - 24) / shape[0]
    for i, (crate, purpose, cited) in enumerate(group.crates):
        cx, cy = x + 12 + (i // shape[1]) * column, y + 34 + (i % shape[1]) * ROW
        d.box(cx, cy, column - 10, ROW - 6, tip=f"{crate} cites: {' '.join(cited) or 'nothing'}")
        d.text(cx + 8, cy + 14, crate, 12.5, True)
        for k, line in enumerate(wrapped(purpose.replace("`", ""), int((column - 26) / 5.1))[:2]):
            d.text(cx + 8, cy + 25 + 11 * k, line, 10, ink=SOFT)


def arrow(d, a, b, share, bands):
    """From the foot of a band, at a share of its width, to the head of another; past the bands between them it goes where none stands."""
    ax, ay, aw, ah = a
    bx, by, bw, _ = b
    x, way = ax + aw * share, [(ax + aw * share, ay + ah)]
    for row in bands:
        top, foot = row[0][1], row[0][1] + row[0][3]
        if ay < top < by:
            gaps = [row[0][0] - GAP / 2] + [bx_ + w + GAP / 2 for bx_, _, w, _ in row]
            gap = min(gaps, key=lambda g: abs(g - x))
            way += [(x, top - GAP), (gap, top - GAP), (gap, foot + GAP)]
            x = gap
    end = min(max(x, bx + 24), bx + bw - 24)
    way += [(x, by - GAP), (end, by - GAP)] if abs(end - x) > 1 else []
    d.arrow(way + [(end, by)])
