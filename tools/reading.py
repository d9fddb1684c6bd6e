#!/usr/bin/env python3
"""What a reader must believe: every definition that the promises of the C functions cite, directly or through others, and those that the theorems of docs/DEMANDS.md are stated with.

    tools/reading.py           writes docs/READING.md: the files in reading order, a line each, with the definitions that are cited
    tools/reading.py --check   whether that page is as it would be written; exit status 1 where not

Either way it is an error (exit status 1) where two of these files, or those of the demands, define one word. It reads the sources: the `ensures` of
each `extern "C"` function, the `use` lines, and the definitions of specs/.
"""
import glob
import os
import re
import sys
import textwrap

os.chdir(os.path.join(os.path.dirname(os.path.abspath(__file__)), ".."))

# the crates that state the demands: their words are looked at too
DEMANDS = {"agreement", "demands", "demand_three", "exactly_once", "one_outcome", "queue_books"}

NAME = r"[^\s(){}\[\];,.:λ]+"
HEAD = re.compile(r"^( *)(?:unfoldable |abbrev )?(?:pub )?(?:(record|data) )?(" + NAME + r")(?: [({][^:]*)* *(?:\{ℓ\} *)?: ")


class Source:
    """A file of specs/: its definitions, each with its text, and what its `use` lines bring in."""

    def __init__(self, crate, module, path):
        self.crate, self.module, self.path = crate, module, path
        self.uses, self.aliases, self.definitions, self.premises = {}, {}, {}, {}
        text = open(path, encoding="utf-8").read()
        if path.endswith(".antt"):
            self.read_uses(re.findall(r"^use (.*)$", text, re.M))
            self.read_definitions(text)

    def read_uses(self, lines):
        for line in lines:
            line = line.strip().rstrip(";")
            m = re.match(r"(\S+?)\.\{(.*)\}$", line)
            if m:
                for item in m.group(2).split(","):
                    words = item.split(" as ")
                    self.uses[words[-1].strip()] = (m.group(1), words[0].strip())
                continue
            m = re.match(r"(\S+) as (\S+)$", line)
            if m:
                self.aliases[m.group(2)] = m.group(1)

    def read_definitions(self, text):
        name, block, heads = None, [], []
        for line in text.split("\n"):
            m = HEAD.match(line)
            if line.strip() and not line.lstrip().startswith("--"):
                heads = [h for h in heads if len(h) - len(h.lstrip()) < len(line) - len(line.lstrip())]
                if line.lstrip().startswith("module _ "):
                    heads.append(line)
            starts = m and not line.startswith("use ") and (len(m.group(1)) == 0 or (m.group(1) == "  " and not self.inside(name, block)))
            if starts:
                self.keep(name, block)
                name, block = m.group(3), [line]
                self.premises.setdefault(name, " ".join(heads))
            elif line.startswith("--") or not line.strip():
                self.keep(name, block)
                name, block = None, []
            elif name:
                block.append(line)
        self.keep(name, block)

    @staticmethod
    def inside(name, block):
        return bool(name) and re.search(r"(?:record|data) ", block[0]) is not None

    def keep(self, name, block):
        if name:
            self.definitions.setdefault(name, "")
            self.definitions[name] += "\n".join(block) + "\n"


    def statement(self, name):
        """What a definition says, or a theorem: its type, with the premises of the modules that it stands in, and not its proof."""
        text = self.definitions[name]
        if not re.match(r" *(?:unfoldable |abbrev |pub record |pub data |record |data )", text):
            text = re.split(r"\n *(?:unfolding |" + re.escape(name) + r" )", text, maxsplit=1)[0]
        return self.premises[name] + " " + text


def read_all():
    sources = {}
    for path in glob.glob("crates/*/specs/*.antt") + glob.glob("crates/*/proofs/*.antt"):
        crate, part = path.split("/")[1:3]
        module = ("" if part == "specs" else "proofs/") + os.path.basename(path)[: -len(".antt")]
        if not module.endswith("Lib"):
            sources[(crate, module)] = Source(crate, module, path)
    return sources


def theorems():
    """The theorems that docs/DEMANDS.md names, each with the file that stands beside it; no name where it says "and so on", for all of the file."""
    for line in open("docs/DEMANDS.md", encoding="utf-8"):
        cells = [c.strip() for c in line.strip().strip("|").split("|")]
        for cell, after in zip(cells, cells[1:] + [""]):
            files = re.findall(r" in `([a-z_]+)/(specs|proofs)/([A-Za-z]+)\.antt`", cell) or re.findall(r"^`([a-z_]+)/(specs|proofs)/([A-Za-z]+)\.antt`", after)
            for crate, part, module in files:
                for name in [None] if "and so on" in cell else re.findall(r"`([^`/ ]+)`", cell):
                    yield crate, ("" if part == "specs" else "proofs/") + module, name


def place(path):
    """The crate and the module that a `use` names, or the enum of a crate's source, or nothing where it is the kit's."""
    m = re.match(r"Rattle\.([a-z_]+)\.specs\.(declared\.)?([A-Za-z]+)(\.TheVariants)?$", path)
    if not m or not os.path.isdir(f"crates/{m.group(1)}"):
        return None
    return ("enum" if m.group(2) else "spec", m.group(1), m.group(3))


def promises():
    """Of each C function: its name, its promise, and what the names in it are."""
    for crate in re.findall(r"^(\w+):", open("crates.txt", encoding="utf-8").read(), re.M):  # static libraries pass on what these have
        path = f"crates/{crate}/src/lib.rt"
        if not os.path.isfile(path):
            continue
        text = open(path, encoding="utf-8").read()
        head = Source.__new__(Source)
        head.uses, head.aliases = {}, {}
        head.read_uses(re.findall(r"^ghost use (.*)$", text, re.M))
        for m in re.finditer(r'pub extern "C" fn (\w+)\((.*?)\n\{', text, re.S):
            yield m.group(1), " ".join(re.findall(r"ensures(?: \w+)? (\{.*?\})(?=\s*(?:ensures|$))", m.group(2), re.S)), head


def reach(sources):
    reached, functions = {}, []

    def visit(kind, crate, module, name):
        key = (kind, crate, module)
        if name in reached.setdefault(key, []):
            return
        if kind == "enum":
            reached[key].append(name)
            return
        source = sources[(crate, module)]
        if name not in source.definitions:
            owner = [d for d, t in source.definitions.items() if re.search(r"^  (?:pub )?" + re.escape(name) + r" : ", t, re.M)]
            if not owner:
                return
            name = owner[0]
            if name in reached[key]:
                return
        reached[key].append(name)
        follow(source.statement(name), source, (crate, module))

    def follow(text, source, here, itself=None):
        text = re.sub(r"--.*", "", text)
        for word in set(re.findall(NAME, text)) - {itself}:
            if word in source.uses:
                path, real = source.uses[word]
                to = place(path)
                if to:
                    visit(*to, real if to[0] == "spec" else to[2])
            elif here and word in sources[here].definitions:
                visit("spec", *here, word)
        for alias, path in source.aliases.items():
            for word in re.findall(r"(?<![\w.'-])" + re.escape(alias) + r"\.(" + NAME + ")", text):
                to = place(path)
                if to:
                    visit(*to, word if to[0] == "spec" else to[2])

    def of():
        return {k: list(v) for k, v in reached.items() if v}

    for function, promise, head in promises():
        functions.append(function)
        follow(promise, head, None)
    promised = of()
    for crate, module, name in theorems():
        source = sources[(crate, module)]
        for each in [name] if name else [n for n, t in source.definitions.items() if re.match(r" *pub (?!record|data)", t)]:
            if each in source.definitions:
                follow(source.statement(each), source, (crate, module), each)
    return promised, of(), functions


def order(sources, reached):
    """The files, each after those that its reached definitions cite, the paper's first."""
    files = [k[1:] for k in reached if k[0] == "spec"]
    cites = {}
    for f in files:
        source = sources[f]
        text = " ".join(source.statement(n) for n in reached[("spec",) + f])
        words = set(re.findall(NAME, text))
        cites[f] = set()
        for word, (path, _) in source.uses.items():
            to = place(path)
            if to and to[0] == "spec" and word in words and to[1:] in files and to[1:] != f:
                cites[f].add(to[1:])
        for alias, path in source.aliases.items():
            to = place(path)
            if to and to[0] == "spec" and alias + "." in text and to[1:] in files and to[1:] != f:
                cites[f].add(to[1:])
    crates = [m for m in re.findall(r"^([a-z_]+):", open("crates.txt").read(), re.M)]
    files.sort(key=lambda f: (crates.index(f[0]), f[1]))
    done = []
    while files:
        f = next(x for x in files if cites[x] <= set(done))
        done.append(f)
        files.remove(f)
    return done, cites


def opening(path):
    """What a file is for, by its first lines."""
    words = []
    for line in open(path, encoding="utf-8"):
        if not line.startswith("-- ") or line.startswith("-- Assumes"):
            break
        words.append(line[3:].strip())
    return " ".join(words)


def groups():
    """The group of each crate, by crates.txt."""
    group, of = "", {}
    for line in open("crates.txt", encoding="utf-8"):
        if line.startswith("## "):
            group = line[3:].strip()
        elif re.match(r"[a-z_]+:", line):
            of[line.split(":")[0]] = group
    return of


def fill(line):
    return textwrap.fill(line, 150, subsequent_indent="  " if line.startswith(("- ", "  ")) else "", break_long_words=False, break_on_hyphens=False) + "\n"


def listing(sources, reached, deep):
    """The files of one list, by the groups of crates.txt, each with its opening words and the definitions that are cited."""
    out, of, group = [], groups(), None
    for f in order(sources, reached)[0]:
        if of[f[0]] != group:
            group = of[f[0]]
            out += ["", f"{deep} " + group[0].upper() + group[1:], ""]
        names = sorted(reached[("spec",) + f], key=lambda n: list(sources[f].definitions).index(n))
        out += [f"- `{sources[f].path}`: {opening(sources[f].path)}", "  Cited: " + ", ".join(f"`{n}`" for n in names) + "."]
    return out


def page(sources, promised, every, functions):
    more = {k: [n for n in v if n not in promised.get(k, [])] for k, v in every.items()}
    more = {k: v for k, v in more.items() if v}
    enums = sorted((crate, name) for kind, crate, name in promised if kind == "enum")
    files = [k for k in promised if k[0] == "spec"]
    cited = sum(len(promised[k]) for k in files)
    out = [
        "# What a reader must believe",
        "",
        f"The promises of the {len(functions)} C functions cite {cited} definitions in {len(files)} files of this repository, directly or through others. Here are these "
        "files in reading order: each stands after those that it cites. After a file's own opening words stand the definitions that are cited; on whatever else "
        "a file holds, and on every file that is not listed, no promise rests. Beside them the kit's own words are used: equality, lists and what is done with them, "
        "numbers, tests ([the signs](DEMANDS.md#signs)). No two definitions of these files have one name; fields and cases may repeat one.",
        "",
        "Who has little time reads the first group, `tables/specs/Tables.antt` and `Valid.antt`, and the C face.",
        "",
        "The answers that a core gives are Options and Results; why there is none, and the other enums and structs that promises cite, stand in the src/lib.rt of their crates: "
        + ", ".join(f"`{crate}::{name}`" for crate, name in enums) + ".",
        "",
        "## What the promises rest on",
    ]
    out += listing(sources, promised, "###")
    out += ["", "## What the theorems of the demands are stated with, beside these"]
    out += listing(sources, more, "###")
    out += ["", "This page is written by `tools/reading.py` from the sources."]
    return "".join(fill(line) for line in out)


def main():
    sources = read_all()
    promised, every, functions = reach(sources)
    words = {}
    for kind, crate, module in every:
        if kind == "enum":
            words.setdefault(module, []).append(f"crates/{crate}/src/lib.rt")
    for f in {k[1:] for k in every if k[0] == "spec"} | {f for f in sources if f[0] in DEMANDS and not f[1].startswith("proofs/")}:
        for name, text in sources[f].definitions.items():
            if re.search(r"^ *(?:unfoldable |abbrev )?pub ", text):
                words.setdefault(name, []).append(sources[f].path)
    twice = {w: p for w, p in words.items() if len(set(p)) > 1}
    for word, paths in sorted(twice.items()):
        print(f"defined twice: {word}: {' '.join(paths)}", file=sys.stderr)
    text = page(sources, promised, every, functions)
    if "--check" in sys.argv:
        same = open("docs/READING.md", encoding="utf-8").read() == text
        print("docs/READING.md: " + ("as written" if same else "not as written: run tools/reading.py") + f", {len(words)} words")
        return 1 if twice or not same else 0
    open("docs/READING.md", "w", encoding="utf-8").write(text)
    return 1 if twice else 0


sys.exit(main())
