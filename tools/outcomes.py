#!/usr/bin/env python3
"""outcomes.py: each C function has its theorem in crates/one_outcome that two outcomes are one, and the theorem speaks of the very promise that the function has: the text of each
`ensures`, once for either outcome (what is lent at entry by its name, at exit with ' or '' after it), and its conclusion compares the number and every parameter lent by `&mut`.
And each is a case of `PublicCall`, over which demand 1 is proved, by the promise of the same name. Prints what is not so; exit status 1 where anything is not."""
import glob
import os
import re
import sys

os.chdir(os.path.join(os.path.dirname(os.path.abspath(__file__)), ".."))


def plain(text):
    return re.sub(r"\s+", " ", text).strip()


def functions():
    """Name, parameters and promises of each C function, from the library that has it: the static libraries pass on what these have (tools/header.py), or are in no archive that a host links."""
    libraries = re.findall(r"^(\w+):", open("crates.txt", encoding="utf-8").read(), re.M)
    for path in sorted(f"crates/{name}/src/lib.rt" for name in libraries if os.path.isfile(f"crates/{name}/src/lib.rt")):
        text = open(path, encoding="utf-8").read()
        for m in re.finditer(r'pub extern "C" fn (\w+)\((.*?)\) -> u32\s*(ensures.*?)\n\{', text, re.S):
            yield m.group(1), m.group(2), [plain(c) for c in re.findall(r"ensures(?: \w+)? \{(.*?)\}(?=\s*(?:ensures|$))", m.group(3), re.S)]


def outcome(promise, mark):
    """A promise as a theorem says it of one of the two outcomes."""
    promise = re.sub(r"\b(\w+)\.(?:old|now)\b", r"\1", promise)
    promise = re.sub(r"\b(\w+)\.new\b", r"\1" + mark, promise)
    return re.sub(r"\bresult\b", "r" + mark, promise)


def wrong(name, parameters, promises, laws):
    theorem = name + "_once"
    found = re.search(r"pub " + theorem + r" :(.*?)\n *" + theorem + " ", laws, re.S)
    if not found:
        yield f"{name}: no theorem {theorem}"
        return
    statement = plain(found.group(1))
    for promise in promises:
        for mark in ("'", "''"):
            if not re.search(r"(?<![\w'])" + re.escape(outcome(promise, mark)) + r"(?![\w'])", statement):
                yield f"{theorem}: does not say {outcome(promise, mark)}"
    concluded = set(re.findall(r"\((\w+)' ≡ \1''\)", statement[statement.rindex("→ ") :]))
    changed = {p.split(":")[0].strip() for p in parameters.split(",") if "&mut" in p} | {"r"}
    if concluded != changed:
        yield f"{theorem}: compares {sorted(concluded)} and not {sorted(changed)}"


def not_called(name, promises, calls, session):
    """Whether the function is a case of `PublicCall`, by its promise. That of cg_session is the record of its three promises."""
    case = re.search(r"^  " + name + r" :(.*)$", calls, re.M)
    if not case:
        yield f"{name}: no case of PublicCall"
    elif name == "cg_session":
        for promise in promises:
            said = re.sub(r"\banswer\b", "out", outcome(promise, "'")).replace("r' ≡", "r ≡")
            if not re.search(re.escape(said) + r"(?![\w'])", session) or "SessionAnswered" not in case.group(1):
                yield f"{name}: SessionAnswered does not say {said}"
    elif not re.search(r"→ " + promises[0].split(" ")[0] + r" .*→ PublicCall r ", case.group(1)):
        yield f"{name}: its case of PublicCall is not by {promises[0].split(' ')[0]}"


def main():
    laws = "\n".join(open(p, encoding="utf-8").read() for p in sorted(glob.glob("crates/one_outcome/specs/*Functions.antt") + glob.glob("crates/one_outcome/proofs/*Functions.antt")))
    every = list(functions())
    calls = open("crates/demands/specs/PublicCalls.antt", encoding="utf-8").read()
    session = open("crates/demands/specs/Session.antt", encoding="utf-8").read()
    found = [w for name, parameters, promises in every for w in [*wrong(name, parameters, promises, laws), *not_called(name, promises, calls, session)]]
    if len(re.findall(r"^  cg_[a-z_]+ :", calls, re.M)) != len(every):
        found.append("PublicCall has other cases")
    print("\n".join(found + [f"outcomes: {len(every)} C functions, {len(found)} wrong"]))
    sys.exit(1 if found else 0)


main()
