//! The text session of document 01 with the Rust behind it. The refusals 5 to 10 are the paper's and are tested before
//! the Rust is called; 0, 3 and 4 and all answers to questions come from the Rust.
use crate::change_graph::ChangeGraph;
use crate::paper::{Paper, Room};
use crate::types::OpId;
use crate::world::{actor_id, guard, hashes, hex, seq_nums, show_hashes, show_nums};
use crate::Change;

pub const SPACE: usize = 65_536;
const LINE: usize = 2_400;

pub struct Outcome {
    pub number: u8,
    pub answer: Vec<u8>,
    /// where the Rust and the paper's definitions part, or the Rust panicked
    pub notes: Vec<String>,
}

fn number(s: &str) -> Option<u64> {
    let plain = !s.is_empty() && s.bytes().all(|b| b.is_ascii_digit()) && (s == "0" || !s.starts_with('0'));
    if plain { s.parse().ok() } else { None }
}

fn list(s: &str) -> Option<Vec<crate::ChangeHash>> {
    if s == "-" {
        return Some(vec![]);
    }
    let full = s.split(',').all(|h| h.len() == 64);
    if full { hashes(s).ok() } else { None }
}

fn one(s: &str) -> Option<crate::ChangeHash> {
    list(s).filter(|v| v.len() == 1).map(|v| v[0])
}

pub fn session(input: &[u8], room: Room) -> Outcome {
    let mut out = Vec::new();
    let mut notes = Vec::new();
    let mut g: Option<(ChangeGraph, Paper)> = None;
    let mut rest = input;
    let mut no = 0;
    loop {
        no += 1;
        if rest.is_empty() && no > 2 {
            break;
        }
        let line = match rest.iter().position(|b| *b == b'\n') {
            Some(n) if n <= LINE => {
                let l = &rest[..n];
                rest = &rest[n + 1..];
                std::str::from_utf8(l).ok()
            }
            _ => None,
        };
        let answer = line.and_then(|l| step(no, l, &mut g, room, &mut notes));
        match answer {
            Some(a) => out.extend(a.as_bytes()),
            None => {
                out.extend(format!("bad\t{no}\n").as_bytes());
                break;
            }
        }
    }
    if out.len() > SPACE {
        return Outcome { number: 15, answer: vec![], notes };
    }
    Outcome { number: 0, answer: out, notes }
}

fn step(
    no: usize,
    line: &str,
    state: &mut Option<(ChangeGraph, Paper)>,
    room: Room,
    notes: &mut Vec<String>,
) -> Option<String> {
    let f: Vec<&str> = line.split('\t').collect();
    if no == 1 {
        return (line == "change list\t1").then(String::new);
    }
    if no == 2 {
        let n = match f[..] {
            ["actors", n] => number(n).filter(|n| (1..=16).contains(n))?,
            _ => return None,
        };
        let paper = Paper::new(room, n as usize).ok()?;
        *state = Some((ChangeGraph::new(n as usize), paper));
        return Some(String::new());
    }
    let (g, p) = state.as_mut().unwrap();
    let (rust, paper) = match f[..] {
        ["add", h, actor, seq, max, count, deps] => {
            let (h, actor, seq, max, count, deps) =
                (one(h)?, number(actor)?, number(seq)?, number(max)?, number(count)?, list(deps)?);
            let own = p.judge(&h, actor, seq, max, count, &deps).0;
            // 5 to 10 are tested here, before the Rust
            let r = if own >= 5 {
                own.to_string()
            } else {
                let known = g.has_change(&h);
                let c = Change { hash: h, actor: actor_id(actor), seq, max_op: max, len: count as usize, deps: deps.clone() };
                guard(|| match g.add_change(&c, actor as usize) {
                    Ok(()) if known => "3".into(),
                    Ok(()) => "0".into(),
                    Err(m) => format!("4\t{}", hex(&m.hash())),
                })
            };
            let (n, d) = p.add(&h, actor, seq, max, count, &deps);
            let q = d.map_or(n.to_string(), |d| format!("{n}\t{}", hex(&d)));
            (r, q)
        }
        ["heads"] => (guard(|| show_hashes(&g.heads().collect::<Vec<_>>())), show_hashes(&p.heads())),
        ["clock", l] => {
            let l = list(l)?;
            (guard(|| show_nums(&seq_nums(&g.seq_clock_for_heads(&l)))), show_nums(&p.seq_clock(&l)))
        }
        ["missing", l] => {
            let l = list(l)?;
            (guard(|| show_hashes(g.get_hashes(&l).iter())), show_hashes(&p.missing(&l)))
        }
        ["owner", a, c] => {
            let (a, c) = (number(a)?, number(c)?);
            let q = p.owner(a, c).map_or("14".into(), |h| hex(&h));
            let fits = a <= u32::MAX as u64 && c <= u32::MAX as u64; // OpId::new panics otherwise
            let r = if fits {
                guard(|| g.opid_to_hash(OpId::new(c, a as usize)).map_or("14".into(), |h| hex(&h)))
            } else {
                "14".into()
            };
            (r, q)
        }
        _ => return None,
    };
    if rust != paper {
        notes.push(format!("line {no}: {} | Rust {rust} | paper {paper}", f[0]));
    }
    Some(format!("{}\t{rust}\n", f[0]))
}

/// As the small program: with more input than its space, or 15, nothing is written.
pub fn program(input: &[u8], room: Room) -> Outcome {
    if input.len() > SPACE {
        return Outcome { number: 15, answer: vec![], notes: vec!["input above 65,536 bytes".into()] };
    }
    session(input, room)
}
