#!/usr/bin/env python3
"""header.py: the headers of include/ say what the code has. changegraph.h declares each `extern "C"` function of the libraries with the same parameters in the same order, a
slice as a pointer and a length, and what it tells with its unit; each number of the paper's table has its name and value; both structs have their fields. changegraph_hub.h has one
short call for each function, cg_hub_X for cg_X, with at most six parameters, and words for each number. All names of both begin with cg_ or CG_. The crate changegraph, of which the
archive is made, has each of these functions word for word as its library has it, parameters, clauses and the words that these cite, and calls that with its own parameters in their order.
Prints what is wrong, and a line; exit status 1 where anything is."""
import glob
import os
import re
import sys

os.chdir(os.path.dirname(os.path.dirname(os.path.abspath(__file__))))
C = {"u8": "uint8_t", "u32": "uint32_t", "u64": "uint64_t", "usize": "size_t", "Edge": "cg_edge", "Clock": "cg_clock"}
MOST_PARAMETERS = 6
# What the place of each function tells.
TELLS = {
    "entries": "cg_clock_of cg_clock_at cg_head_indexes cg_actor_ids",
    "bytes": "cg_missing cg_owner cg_heads cg_index_to_hash cg_get_hash_for_actor_seq cg_deps_for_hash cg_remove_ancestors cg_session",
    "yes": "cg_has_change cg_heads_are_current cg_chained cg_queue_is_empty cg_queue_has_hash cg_queue_has_actor_seq cg_clock_include cg_clock_covers cg_clock_op_covers"
    " cg_clock_visible_after cg_clock_visible_before",
    "records": "cg_queue_iter cg_release",
    "max_op": "cg_max_op_for_actor cg_max_op",
    "changes": "cg_len",
    "actors": "cg_num_actors",
    "sequence": "cg_seq_for_actor",
    "index": "cg_hash_to_index",
    "entry": "cg_clock_get",
}
# These are lent tables that hold nothing yet: the header has no `const` there, so that no compiler warns.
OPENING = {"cg_open", "cg_queue_open"}
# What the header calls a parameter, where that is not the code's name. First those of one function.
IN = {(function, "told"): "told_" + unit for unit, functions in TELLS.items() for function in functions.split()} | {
    ("cg_add", "unknown"): "told_unknown",
    ("cg_add", "deps"): "dependencies",
    ("cg_load", "deps"): "dep_counts",
    ("cg_load", "ops"): "op_counts",
    ("cg_load", "count"): "actor_count",
}
CALLED = {
    "a": "clock", "b": "other", "c": "clock", "e": "clock", "n": "before_count", "m": "after_count",
    "max": "max_op", "top": "max_op", "maxes": "max_ops", "ops": "op_count", "needs": "dependencies", "values": "dep_values",
    "seq": "sequence", "from": "sequence", "seqs": "sequences",
    "bhashes": "batch_hashes", "bnumbers": "batch_numbers", "bdeps": "batch_deps", "bcount": "batch_count",
    "qhashes": "queue_hashes", "qnumbers": "queue_numbers", "qdeps": "queue_deps", "qcount": "queue_count",
    "thashes": "to_hashes", "tnumbers": "to_numbers", "tdeps": "to_deps",
}


def read(path):
    return open(path, encoding="utf-8").read()


def in_c(function, parameter):
    """A parameter of the code as the header has it: one declaration, or for a slice two."""
    name, kind = (part.strip() for part in parameter.split(":"))
    name = IN.get((function, name), CALLED.get(name, name))
    m = re.fullmatch(r"&(mut )?(\[)?(\w+)\]?", kind)
    if not m:
        return [f"{C[kind]} {name}"]
    pointer = ("" if m[1] or function in OPENING else "const ") + C[m[3]] + " *" + name
    return [pointer, f"size_t {name}_len"] if m[2] else [pointer]


def exported(path):
    """The `extern "C"` functions of a source file: of each its name, parameters, result, clauses, body, and where each word that the file brings in comes from."""
    text = read(path)
    words = {word.strip(): place for place, list_ in re.findall(r"^ghost use (\S+?)\.\{(.*)\};$", text, re.M) for word in list_.split(",")}
    words |= {word: place for place, word in re.findall(r"^use (\w+)::(\w+);$", text, re.M)}
    for name, parameters, result, clauses, body in re.findall(r'pub extern "C" fn (\w+)\(([^)]*)\) -> (\w+)\n(.*?)\n\{\n(.*?)\n\}', text, re.S):
        yield name, [p.strip() for p in parameters.split(",") if p.strip()], result, re.sub(r"\s+", " ", clauses).strip(), re.sub(r"\s+", " ", body).strip(), words


def crates():
    """The libraries, and the static libraries of which a host may link one: benchmark_cores is for benchmarks alone."""
    every = re.findall(r"^(\w+)( staticlib)?:", read("crates.txt"), re.M)
    return [name for name, static in every if not static], [name for name, static in every if static and name != "benchmark_cores"]


def of_code():
    functions, structs = {}, {}
    for name in crates()[0]:
        for path in glob.glob(f"crates/{name}/src/*.rt"):
            for function, parameters, result, *_ in exported(path):
                functions[function] = C[result] + " (" + ", ".join(d for p in parameters for d in in_c(function, p)) + ")"
            for struct, body in re.findall(r"pub struct (Edge|Clock) \{(.*?)\}", read(path), re.S):
                structs[C[struct]] = [C[kind] + " " + field + (f"[{n}]" if n else "") for field, kind, n in re.findall(r"pub (\w+): \[?(\w+)(?:; (\d+)\])?,", body)]
    numbers = re.findall(r"^number (\S+) = (\d+)$", read("crates/paper/specs/Numbers.antt"), re.M)
    return functions, {"CG_" + name.upper(): value for name, value in numbers}, structs


def cited(clauses, parameters, words):
    """Of what a function's clauses and parameters cite: where each word comes from."""
    used = set(re.findall(r"[^\s(){}\[\];,.:&λ]+", " ".join([clauses, *parameters])))
    return {word: place for word, place in words.items() if word.replace("◌", "") in used}


def passed_on():
    """What a static library has otherwise than the libraries: a function that is missing or that none has, other words, a call of another function or with other arguments."""
    libraries, static = crates()
    own = {f[0]: (name, *f[1:]) for name in libraries for path in glob.glob(f"crates/{name}/src/*.rt") for f in exported(path)}
    for crate in static:
        has = {f[0]: f[1:] for path in sorted(glob.glob(f"crates/{crate}/src/*.rt")) for f in exported(path)}
        if crate == "changegraph":
            yield from (f"{crate} lacks {name}" for name in own if name not in has)
        for name, (parameters, result, clauses, body, words) in has.items():
            if name not in own:
                yield f"{crate}: no library has {name}"
                continue
            library, parameters_, result_, clauses_, _, words_ = own[name]
            if (parameters, result, clauses) != (parameters_, result_, clauses_):
                yield f"{crate}: {name} is not word for word as in {library}"
            here, there = cited(clauses, parameters, words), cited(clauses_, parameters_, words_)
            yield from (f"{crate}: {name} has {word} from {here.get(word)} and not from {place}" for word, place in there.items() if here.get(word, library) != place)
            arguments = ", ".join(p.split(":")[0] for p in parameters)
            if re.sub(r"\( ", "(", re.sub(r",? \)$", ")", body)) != f"{library}::{name}({arguments})":
                yield f"{crate}: {name} is not the call of {library}::{name} with its own parameters"


def code_of(path):
    return re.sub(r"/\*.*?\*/", "", read(path), flags=re.S)


def of_header():
    text = re.sub(r"\s+", " ", code_of("include/changegraph.h"))
    functions = {name: f"{result} ({parameters})" for result, name, parameters in re.findall(r"(\w+) (cg_\w+)\(([^)]*)\);", text.replace("CG_ANSWER", "uint32_t"))}
    structs = {name: [f.strip() for f in body.split(";") if f.strip()] for name, body in re.findall(r"typedef struct (\w+) \{([^}]*)\}", text)}
    return functions, dict(re.findall(r"(CG_\w+) = (\d+)", re.search(r"enum \{([^}]*)\}", text)[1])), structs


def hub_wrong(functions, numbers):
    """What changegraph_hub.h has wrong: a function without its short call, a call that is not short, a number without words."""
    text = code_of("include/changegraph_hub.h")
    calls = re.findall(r"^static inline CG_ANSWER (cg_hub_\w+)\(([^)]*)\) \{(.*?)\}$", text, re.M | re.S)
    wrong = [f"{name} has no short call" for name in functions if [c[0] for c in calls].count("cg_hub_" + name[3:]) != 1]
    for name, parameters, body in calls:
        if re.findall(r"\b(cg_\w+)\(", body).count("cg_" + name[7:]) != 1:
            wrong.append(f"{name} does not call cg_{name[7:]}")
        if len(parameters.split(",")) > MOST_PARAMETERS:
            wrong.append(f"{name} has more than {MOST_PARAMETERS} parameters")
    return wrong + [f"cg_text has no words for {name}" for name in numbers if text.count(f"case {name}:") != 1]


def names_wrong(path):
    """Names of a header that do not begin with cg_ or CG_: macros, types, constants, functions."""
    text = code_of(path)
    names = re.findall(r"^#define (\w+)", text, re.M) + re.findall(r"^typedef struct (\w+)", text, re.M) + re.findall(r"^\} (\w+);", text, re.M)
    names += [name for body in re.findall(r"^enum \{(.*?)\}", text, re.M | re.S) for name in re.findall(r"(\w+) =", body)]
    names += re.findall(r"^(?:static inline )?(?:const )?\w+ \*?(\w+)\(", text, re.M)
    return [f"{path}: {name} begins with neither cg_ nor CG_" for name in names if not re.match("cg_|CG_", name)]


def main():
    code = of_code()
    wrong = [*passed_on(), *hub_wrong(code[0], code[1])] + names_wrong("include/changegraph.h") + names_wrong("include/changegraph_hub.h")
    for what, here, there in zip(("function", "number", "struct"), code, of_header()):
        for name in sorted(set(here) | set(there)):
            if here.get(name) != there.get(name):
                wrong.append(f"{what} {name}\n  in the code:   {here.get(name)}\n  in the header: {there.get(name)}")
    functions, numbers, structs = (len(part) for part in code)
    print("\n".join(wrong + [f"headers: {functions} functions and their short calls, {numbers} numbers, {structs} structs, {len(wrong)} wrong"]))
    sys.exit(1 if wrong else 0)


if __name__ == "__main__":
    main()
