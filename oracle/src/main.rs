//! The oracle: automerge 0.11.0's clock.rs, change_queue.rs and change_graph.rs, text unchanged, over stand-ins.
mod hexane;
mod standins;

#[allow(unused_imports)]
pub(crate) use standins::{
    change::Change,
    error::{self, AutomergeError},
    op_set2, storage,
    types::{self, ActorId, ChangeHash},
};

#[allow(dead_code)]
pub(crate) mod clock {
    include!(concat!(env!("OUT_DIR"), "/orig_clock.rs"));
}

#[allow(dead_code)]
pub(crate) mod change_queue {
    include!(concat!(env!("OUT_DIR"), "/orig_change_queue.rs"));
    include!("queue_tail.rs");
}

#[allow(dead_code)]
pub(crate) mod change_graph {
    use crate::hexane;
    include!(concat!(env!("OUT_DIR"), "/orig_change_graph.rs"));
    include!("graph_tail.rs");
}

#[cfg(feature = "archive")]
mod bench;
mod checks;
mod fuzz;
mod paper;
mod session;
mod world;

use std::io::{BufRead, Read, Write};

const HELP: &str = "oracle MODE
  drive [--paper] [--short] [--bench]   line protocol on stdin and stdout (README.md has the commands)
  session [--full]                       the text session; notes on stderr where Rust and paper part
  check                                  the self-checks of checks.txt and the samples
  fuzz SEED ROUNDS [HOST]                random comparison of the Rust with the paper's definitions; a host's answers too
  owners                                 all small op range lists: where the owner differs
  gen-session SEED LINES [--any]         a random text session; --any: owners of ranges that do not ascend too
  gen-drive SEED STEPS                   random commands for drive
  bench [names | once NAME SIDE]         times beside the archive's (built with --features archive)
  taken                                  which text was taken, and from where
";

fn main() {
    world::hook();
    let args: Vec<String> = std::env::args().skip(1).collect();
    let has = |s: &str| args.iter().any(|a| a == s);
    let code = match args.first().map(String::as_str) {
        Some("drive") => {
            let room = if has("--bench") { paper::BENCH } else { paper::FULL };
            drive(room, has("--paper"), has("--short"));
            0
        }
        Some("session") => {
            let mut input = Vec::new();
            std::io::stdin().read_to_end(&mut input).unwrap();
            let room = if has("--full") { paper::FULL } else { paper::BENCH };
            let o = session::program(&input, room);
            std::io::stdout().write_all(&o.answer).unwrap();
            for n in &o.notes {
                eprintln!("{n}");
            }
            o.number as i32
        }
        Some("check") => checks::run(),
        Some("fuzz") if args.len() == 3 || args.len() == 4 => {
            let host = args.get(3).map(|p| fuzz::Host::new(p));
            fuzz::run(args[1].parse().unwrap(), args[2].parse().unwrap(), host)
        }
        Some("owners") => fuzz::owners(),
        Some("gen-session") if args.len() >= 3 => {
            print!("{}", fuzz::gen_session(args[1].parse().unwrap(), args[2].parse().unwrap(), has("--any")));
            0
        }
        Some("gen-drive") if args.len() == 3 => {
            print!("{}", fuzz::gen_drive(args[1].parse().unwrap(), args[2].parse().unwrap()));
            0
        }
        #[cfg(feature = "archive")]
        Some("bench") => match args.get(1).map(String::as_str) {
            None => bench::run(),
            Some("names") => bench::names(),
            Some("once") if args.len() == 4 => bench::once(&args[2], &args[3]),
            _ => 2,
        },
        Some("taken") => {
            print!("{}", include_str!(concat!(env!("OUT_DIR"), "/taken.txt")));
            0
        }
        _ => {
            print!("{HELP}");
            2
        }
    };
    std::process::exit(code);
}

/// One command a line, one answer a line: the Rust's; with --paper also a tab, the paper's, and DIFF where they part.
fn drive(room: paper::Room, with_paper: bool, short: bool) {
    let mut w = world::World::new(room, with_paper);
    let stdout = std::io::stdout();
    let mut out = std::io::BufWriter::new(stdout.lock());
    for line in std::io::stdin().lock().lines() {
        let line = line.unwrap();
        if line.trim().is_empty() || line.starts_with("//") {
            continue;
        }
        let text = match w.run(&line) {
            Err(e) => format!("error {e}"),
            Ok(a) if with_paper => {
                let mark = if a.parts() { "\tDIFF" } else { "" };
                format!("{}\t{}{mark}", a.rust, a.paper.as_deref().unwrap_or("n/a"))
            }
            Ok(a) => a.rust,
        };
        let text = if short { world::short(&text) } else { text };
        writeln!(out, "{text}").unwrap();
        out.flush().unwrap();
    }
}
