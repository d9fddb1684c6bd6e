#!/usr/bin/env python3
"""Gives the proofs of crates/NAME/proofs/F/Proof.antt the names that today's kit makes for goals, steps and places, once.

usage: rt names FOLDER; python3 tools/goal_names.py FOLDER [CRATE..]      at the top of the repository

FOLDER has, for each crate, the kit's list of old and new names. A goal that the kit answers by itself now leaves the list of answers, and the lemma that answered it goes.
It says 'look:' where the answers do not fit the goals, and changes nothing there but names.
"""
import glob
import json
import os
import re
import sys

WORD = r"[^\s(){}.;,@\"«»`]+"


def norm(name):
    """A name without what its spelling changed: dashes, and the kind of sum that may not fit."""
    return re.sub(r"^(overflow|nonzero)-", "", name.replace("_", "-"))


def arguments(text, at):
    """The arguments of a call, from `at` to the parenthesis that closes it."""
    out, depth, start, i = [], 0, None, at
    while i < len(text):
        ch = text[i]
        if depth == 0 and ch == ")":
            if start is not None:
                out.append((start, i))
            return out, i
        if ch in "({[":
            if depth == 0 and start is None:
                start = i
            depth += 1
        elif ch in ")}]":
            depth -= 1
            if depth == 0 and (i + 1 == len(text) or text[i + 1] in " \n)"):
                out.append((start, i + 1))
                start = None
        elif ch in " \n":
            if depth == 0 and start is not None:
                out.append((start, i))
                start = None
        elif start is None:
            start = i
        i += 1
    return out, i


def fitted(answers, goals, asked, loops):
    """For each goal the number of its answer; None where none fits."""
    n, m = len(answers), len(goals)
    if n == m:
        return list(range(n))
    big = 10**6

    def is_search(a):
        return re.fullmatch(r"\(λ c( κs| κs qs)?\. search rules\)", a) is not None

    def drop(a):
        return 0 if is_search(a) else 5 if a.startswith("(") else 3

    def match(a, g):
        if a in asked:
            return 0 if norm(asked[a]) == norm(g) else big
        if not a.startswith("("):
            return big
        wants = g.endswith("-requires") or re.search(r"-requires-\d+$", g) is not None
        return 0 if bool(re.match(r"\(λ c κs", a)) == wants else 8

    cost = [[big] * (m + 1) for _ in range(n + 1)]
    back = [[None] * (m + 1) for _ in range(n + 1)]
    cost[0][0] = 0
    for i in range(n):
        for j in range(m + 1):
            if cost[i][j] >= big:
                continue
            c = cost[i][j] + drop(answers[i])
            if c < cost[i + 1][j]:
                cost[i + 1][j], back[i + 1][j] = c, None
            if j < m:
                c = cost[i][j] + match(answers[i], goals[j])
                if c < cost[i + 1][j + 1]:
                    cost[i + 1][j + 1], back[i + 1][j + 1] = c, j
    if cost[n][m] >= big:
        return None
    out, j = {}, m
    for i in range(n, 0, -1):
        if back[i][j] is not None:
            out[back[i][j]] = i - 1
            j -= 1
    return [out[j] for j in range(m)]


def turned(path, text, of):
    said = []
    needs = {norm(old): new for old, new in of["needs"]}
    goals = [old for old, _ in of["needs"]]
    places, fields = {}, {}
    for (place, _, (old, new), _, _), by_name in zip(of["places"], of["places_by_name"]):
        places[norm(place)] = by_name
        if old:
            fields[norm(old)] = new
    for now, was in [(b, a) for a, b in of["asked_at"]]:
        places.setdefault(norm(was), now)
    loops = {norm(l[0][0]): l[0][1] for l in of["loops"]}

    # the answers
    m = re.search(r"\(tie\.spec\s", text)
    dropped = set()
    if m and not of["stem"]:
        asked = {a[0]: a[1] for a in re.findall(rf"(?m)^({WORD}) : tie\.Need-(\S+)", text)}
        args, end = arguments(text, m.end() - 1)
        texts = [text[a:b] for a, b in args]
        first = 2 * len(of["loops"]) + (1 if re.search(r"(?m)^\S+ : tie\.decreases$", text) else 0)
        answers = texts[first:]
        fit = fitted(answers, goals, asked, loops) if len(answers) >= len(goals) else None
        if fit is None:
            said.append(f"look: {path}: {len(answers)} answers, {len(goals)} goals")
        else:
            kept = texts[:first] + [answers[i] for i in fit]
            dropped = {a for i, a in enumerate(answers) if i not in fit and a in asked}
            odd = [a for i, a in enumerate(answers) if i not in fit and a not in asked and "search rules" not in a]
            if odd:
                said.append(f"look: {path}: left out {odd}")
            if kept:
                text = text[: m.end() - 1] + "\n    " + "\n    ".join(kept) + text[end:]
            else:
                text = text[: m.start()] + "tie.spec" + text[end + 1 :]
    for name in dropped:
        text = re.sub(rf"(?ms)^(--[^\n]*\n)*{re.escape(name)} : tie\.Need-.*?(?=^\S|\Z)(?:unfolding[^\n]*\n)?(^{re.escape(name)} .*?(?=^\S|\Z))?", "", text)
        if re.search(rf"(?<![\w.-]){re.escape(name)}(?![\w-])", text):
            said.append(f"look: {path}: {name} went and is still named")

    def one(m):
        head, w = m[1], m[2]
        if head == "tie." or re.search(r"-lts\.$", head):
            for kind in ("Need-",):
                if w.startswith(kind) and norm(w[len(kind) :]) in needs:
                    return head + kind + needs[norm(w[len(kind) :])]
            for kind in ("invariant-", "decreases-"):
                if w.startswith(kind) and norm(w[len(kind) :]) in loops:
                    return head + kind + loops[norm(w[len(kind) :])]
            if norm(w) in places:
                return head + places[norm(w)]
            return m[0]
        return m[0]

    text = re.sub(rf"((?:tie|[\w-]+-lts)\.)({WORD})", one, text)

    def step(m):
        w = m[1]
        return "." + fields.get(norm(w), w)

    text = re.sub(rf"(?<=[\w)])\.({WORD})", lambda m: step(m) if norm(m[1]) in fields and not re.search(r"(Rattle|tie|lts|Tie)[^\s]*$", text[max(0, m.start() - 80) : m.start()].split(" ")[-1].split("(")[-1]) else m[0], text)
    return text, said


def main(argv):
    names, only = argv[0], set(argv[1:])
    for listed in sorted(glob.glob(f"{names}/crates/*/names.json")):
        crate = os.path.basename(os.path.dirname(listed))
        if only and crate not in only:
            continue
        for module, of in json.load(open(listed, encoding="utf-8")).items():
            m = re.fullmatch(r"Rattle-(\w+)-proofs\.(.+)\.Lts(-\w+)?", module)
            if not m:
                continue
            path = f"crates/{crate}/proofs/{m[2].replace('.', '/')}/Proof.antt"
            if m[3] or not os.path.exists(path):
                continue
            text = open(path, encoding="utf-8").read()
            if "as tie" not in text:
                continue
            new, said = turned(path, text, of)
            print("".join(s + "\n" for s in said), end="")
            if new != text:
                open(path, "w", encoding="utf-8").write(new)
    return 0


if __name__ == "__main__":
    raise SystemExit(main(sys.argv[1:]))
