//! Takes the text of automerge 0.11.0 from the directory AUTOMERGE_SRC (default ../../shared/docs/src, from this folder).
//! Three files go in whole and unchanged; from types.rs the items listed in TYPES_ITEMS are cut out by name.
use std::path::{Path, PathBuf};
use std::{env, fs};

const WHOLE: [&str; 3] = ["clock.rs", "change_queue.rs", "change_graph.rs"];

/// Top-level items of types.rs that are used as published (each with its attribute lines).
const TYPES_ITEMS: [&str; 7] = [
    "pub(crate) struct OpId(u32, u32);",
    "impl OpId {",
    "pub(crate) const HASH_SIZE: usize",
    "pub struct ChangeHash(pub [u8; HASH_SIZE]);",
    "impl ChangeHash {",
    "impl fmt::Debug for ChangeHash {",
    "impl fmt::Display for ChangeHash {",
];

/// Functions of the three files that are left out because no stand-in makes them compile: none.
const CUT: [(&str, &str); 0] = [];

fn find(dir: &Path, name: &str) -> PathBuf {
    let names = [
        format!("src--src--{name}.txt"),
        format!("src--src--{name}"),
        name.to_string(),
        format!("{name}.txt"),
        format!("src/{name}"),
    ];
    for n in &names {
        let p = dir.join(n);
        if p.is_file() {
            return p;
        }
    }
    panic!("AUTOMERGE_SRC={}: no file {name} (tried {names:?})", dir.display());
}

/// The item that begins with `start`, from its first attribute or comment line to its end.
fn item(text: &str, start: &str) -> String {
    let lines: Vec<&str> = text.lines().collect();
    let at = lines
        .iter()
        .position(|l| l.starts_with(start))
        .unwrap_or_else(|| panic!("types.rs: no item {start}"));
    let mut first = at;
    while first > 0 && (lines[first - 1].starts_with("#[") || lines[first - 1].starts_with("//")) {
        first -= 1;
    }
    let mut last = at;
    if lines[at].ends_with('{') {
        while lines[last] != "}" {
            last += 1;
        }
    }
    lines[first..=last].join("\n") + "\n"
}

fn main() {
    if env::var("CARGO_FEATURE_ARCHIVE").is_ok() {
        println!("cargo:rerun-if-env-changed=CHANGEGRAPH_LIB");
        let dir = env::var("CHANGEGRAPH_LIB").expect("CHANGEGRAPH_LIB names the folder of libchangegraph.a and libbenchmark_cores.a");
        println!("cargo:rustc-link-search=native={dir}");
        println!("cargo:rustc-link-lib=static=changegraph");
        println!("cargo:rustc-link-lib=static=benchmark_cores");
    }
    println!("cargo:rerun-if-env-changed=AUTOMERGE_SRC");
    println!("cargo:rerun-if-changed=build.rs");
    let dir = match env::var("AUTOMERGE_SRC") {
        Ok(dir) => PathBuf::from(dir),
        Err(_) => PathBuf::from(env::var("CARGO_MANIFEST_DIR").unwrap()).join("../../shared/docs/src"),
    };
    let out = PathBuf::from(env::var("OUT_DIR").unwrap());
    let mut taken = String::new();
    for name in WHOLE {
        let p = find(&dir, name);
        println!("cargo:rerun-if-changed={}", p.display());
        let text = fs::read_to_string(&p).unwrap();
        for (file, func) in CUT {
            assert!(file != name || text.contains(func));
        }
        taken += &format!("{} whole, {} lines, {} bytes\n", p.display(), text.lines().count(), text.len());
        fs::write(out.join(format!("orig_{name}")), text).unwrap();
    }
    let p = find(&dir, "types.rs");
    println!("cargo:rerun-if-changed={}", p.display());
    let text = fs::read_to_string(&p).unwrap();
    let mut cut = String::new();
    for start in TYPES_ITEMS {
        cut += &item(&text, start);
        cut += "\n";
    }
    taken += &format!("{} in part: {}\n", p.display(), TYPES_ITEMS.join(" | "));
    fs::write(out.join("orig_types.rs"), cut).unwrap();
    fs::write(out.join("taken.txt"), taken).unwrap();
}
