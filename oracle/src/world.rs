//! One command line in, the Rust's answer and the paper's answer out.
use crate::change_graph::{ids, ChangeGraph, ChangeGraphCols};
use crate::change_queue::{ChangeBatch, ChangeQueue};
use crate::clock::{Clock, ClockRange, SeqClock};
use crate::paper::{self, Cols, Paper, Rec, Room};
use crate::storage::{Document, RawColumn};
use crate::types::OpId;
use crate::{hexane, standins, ActorId, AutomergeError, Change, ChangeHash};
use std::borrow::Cow;
use std::collections::BTreeSet;
use std::num::NonZeroU32;
use std::panic::{catch_unwind, AssertUnwindSafe};

pub fn hex(h: &ChangeHash) -> String {
    standins::hex::encode(h.0)
}

/// 64 hex digits; `H` and one hex digit: that digit 64 times; `#n`: byte ff, zeros, n in the last 8 bytes.
pub fn hash(s: &str) -> Result<ChangeHash, String> {
    let bad = || format!("bad hash {s}");
    let mut out = [0u8; 32];
    if let Some(n) = s.strip_prefix('#') {
        out[0] = 0xff;
        out[24..].copy_from_slice(&n.parse::<u64>().map_err(|_| bad())?.to_be_bytes());
        return Ok(ChangeHash(out));
    }
    let full = match s.strip_prefix('H') {
        Some(d) if d.len() == 1 => d.repeat(64),
        _ => s.to_string(),
    };
    if full.len() != 64 || !full.bytes().all(|b| b.is_ascii_digit() || (b'a'..=b'f').contains(&b)) {
        return Err(bad());
    }
    for i in 0..32 {
        out[i] = u8::from_str_radix(&full[2 * i..2 * i + 2], 16).unwrap();
    }
    Ok(ChangeHash(out))
}

/// Hashes in their short forms, for reading.
pub fn short(s: &str) -> String {
    let is_hex = |b: u8| b.is_ascii_digit() || (b'a'..=b'f').contains(&b);
    let (b, mut out, mut i) = (s.as_bytes(), String::new(), 0);
    while i < b.len() {
        let n = b[i..].iter().take_while(|c| is_hex(**c)).count();
        if n == 64 {
            let h = &s[i..i + 64];
            if h.bytes().all(|c| c == b[i]) {
                out += &format!("H{}", b[i] as char);
            } else if h.starts_with("ff0000000000000000000000000000000000000000000000") {
                out += &format!("#{}", u64::from_str_radix(&h[48..], 16).unwrap());
            } else {
                out += h;
            }
            i += 64;
        } else {
            out.push(b[i] as char);
            i += 1;
        }
    }
    out
}

fn items(s: &str) -> impl Iterator<Item = &str> {
    s.split(',').filter(move |_| s != "-")
}

pub fn hashes(s: &str) -> Result<Vec<ChangeHash>, String> {
    items(s).map(hash).collect()
}

pub fn num(s: &str) -> Result<u64, String> {
    s.parse().map_err(|_| format!("bad number {s}"))
}

fn nums(s: &str) -> Result<Vec<u64>, String> {
    items(s).map(num).collect()
}

fn join<T>(v: impl IntoIterator<Item = T>, f: impl Fn(T) -> String) -> String {
    let v: Vec<String> = v.into_iter().map(f).collect();
    if v.is_empty() {
        "-".into()
    } else {
        v.join(",")
    }
}

pub fn show_hashes<'a>(v: impl IntoIterator<Item = &'a ChangeHash>) -> String {
    join(v, hex)
}

pub fn show_nums(v: &[u64]) -> String {
    join(v, |n| n.to_string())
}

pub fn seq_nums(c: &SeqClock) -> Vec<u64> {
    c.0.iter().map(|e| e.map_or(0, |n| n.get() as u64)).collect()
}

fn op_nums(c: &Clock) -> Vec<u64> {
    c.0.iter().map(|e| *e as u64).collect()
}

fn seq_clock(s: &str) -> Result<SeqClock, String> {
    let v = nums(s)?;
    v.iter()
        .map(|n| u32::try_from(*n).map(NonZeroU32::new).map_err(|_| "clock entry above 32 bits".to_string()))
        .collect::<Result<_, _>>()
        .map(SeqClock)
}

fn op_clock(s: &str) -> Result<Clock, String> {
    let v = nums(s)?;
    v.iter()
        .map(|n| u32::try_from(*n).map_err(|_| "clock entry above 32 bits".to_string()))
        .collect::<Result<_, _>>()
        .map(Clock)
}

/// none | cur:CLOCK | diff:CLOCK:CLOCK
fn range(s: &str) -> Result<ClockRange, String> {
    let p: Vec<&str> = s.split(':').collect();
    Ok(match p[..] {
        ["none"] => ClockRange::current(None),
        ["cur", a] => ClockRange::current(Some(op_clock(a)?)),
        ["diff", b, a] => ClockRange::Diff(op_clock(b)?, op_clock(a)?),
        _ => return Err(format!("bad range {s}")),
    })
}

fn yes(b: bool) -> String {
    if b { "yes" } else { "no" }.into()
}

pub fn actor_id(key: u64) -> ActorId {
    ActorId(key.to_be_bytes().to_vec())
}

thread_local! {
    static GUARDED: std::cell::Cell<bool> = const { std::cell::Cell::new(false) };
}

/// A panic of the Rust's is an answer, not a message; one of the oracle's own is told.
pub fn hook() {
    std::panic::set_hook(Box::new(|info| {
        if !GUARDED.get() {
            eprintln!("oracle: {info}");
        }
    }));
}

/// Runs the Rust; a panic is an answer.
pub fn guard(f: impl FnOnce() -> String) -> String {
    GUARDED.set(true);
    let a = catch_unwind(AssertUnwindSafe(f)).unwrap_or_else(|_| "panic".into());
    GUARDED.set(false);
    a
}

#[derive(Clone)]
pub struct World {
    pub room: Room,
    /// on: after a refusal of the paper's the Rust's state is put back too, so that both stay alike
    pub in_step: bool,
    pub g: ChangeGraph,
    pub q: ChangeQueue,
    pub b: ChangeBatch,
    pub p: Paper,
    pub pq: Vec<Rec>,
    pub pb: Vec<Rec>,
}

/// The paper's answer: `None` where the paper has no such question.
pub struct Answer {
    pub rust: String,
    pub paper: Option<String>,
}

impl Answer {
    /// Do they part inside the domain of comparison (the Rust did not panic)?
    pub fn parts(&self) -> bool {
        let first = |s: &str| s.split(' ').next().unwrap_or("").to_string();
        match &self.paper {
            None => false,
            Some(_) if self.rust == "panic" || self.rust == "notcalled" => false,
            Some(p) if p == "18" => first(&self.rust) != "18",
            Some(p) => *p != self.rust,
        }
    }
}

pub fn document(actors: usize, c: &Cols) -> Document<'static> {
    use hexane::{DeltaEncoder, Encoder, EncoderApi};
    use ids::*;
    let mut out = Vec::new();
    let meta = [
        // numbers wider than the decoder's 32 bits panic there, as the stand-in has it
        RawColumn::new(ACTOR_COL_SPEC, Encoder::<u64>::encode_to(&mut out, c.actors.iter().copied())),
        RawColumn::new(SEQ_COL_SPEC, DeltaEncoder::<u64>::encode_to(&mut out, c.seq.iter().copied())),
        RawColumn::new(MAX_OP_COL_SPEC, DeltaEncoder::<u64>::encode_to(&mut out, c.max.iter().copied())),
        RawColumn::new(DEPS_COUNT_COL_SPEC, Encoder::<u64>::encode_to(&mut out, c.ndeps.iter().copied())),
        RawColumn::new(DEPS_VAL_COL_SPEC, DeltaEncoder::<u64>::encode_to(&mut out, c.deps.iter().copied())),
        RawColumn::new(EXTRA_META_COL_SPEC, Encoder::<u64>::encode_to(&mut out, c.actors.iter().map(|_| 0u64))),
    ]
    .into_iter()
    .collect();
    Document {
        actors: (0..actors as u64).map(actor_id).collect(),
        meta,
        bytes: Cow::Owned(out),
        heads: c.heads.clone(),
    }
}

/// The changes that finalize is given: only hash and length are asked of them.
pub fn load_changes(c: &Cols) -> Vec<Change> {
    (0..c.hashes.len())
        .map(|i| Change {
            hash: c.hashes[i],
            actor: actor_id(0),
            seq: 0,
            max_op: 0,
            len: c.counts.get(i).copied().unwrap_or(0) as usize,
            deps: vec![],
        })
        .collect()
}

/// The columns of a graph, for load.
pub fn columns(g: &ChangeGraph) -> Cols {
    let edges = g.oracle_edges();
    let mut c = Cols { heads: g.heads().collect(), ..Cols::default() };
    for (i, n) in g.oracle_nodes().iter().enumerate() {
        c.actors.push(n.actor as u64);
        c.seq.push(n.seq as u64);
        c.max.push(n.max_op as u64);
        c.counts.push(n.num_ops);
        c.hashes.push(*g.index_to_hash(i).unwrap());
        let (mut e, mut k) = (n.first, 0);
        while e != 0 {
            c.deps.push(edges[e as usize - 1].0 as u64);
            e = edges[e as usize - 1].1;
            k += 1;
        }
        c.ndeps.push(k);
    }
    c
}

fn circle_possible(c: &Cols) -> bool {
    let mut vals = c.deps.iter();
    let mut upward = false;
    for (i, k) in c.ndeps.iter().enumerate() {
        upward |= vals.by_ref().take(*k as usize).any(|d| *d >= i as u64);
    }
    upward && c.ndeps.len() > 33
}

pub fn show_cache(g: &ChangeGraph) -> String {
    let v: Vec<String> =
        g.oracle_cache().iter().map(|(n, c)| format!("{n}:{}", show_nums(&seq_nums(c)))).collect();
    if v.is_empty() { "-".into() } else { v.join(";") }
}

impl World {
    pub fn new(room: Room, in_step: bool) -> World {
        World {
            room,
            in_step,
            g: ChangeGraph::new(0),
            q: ChangeQueue::new(),
            b: ChangeBatch::new(),
            p: Paper::new(room, 0).unwrap(),
            pq: vec![],
            pb: vec![],
        }
    }

    /// Changes the Rust graph only if nothing panics (a panic of the Rust's may leave it half changed).
    fn try_graph(&mut self, f: impl FnOnce(&mut ChangeGraph) -> String) -> String {
        let mut g = self.g.clone();
        let a = guard(|| f(&mut g));
        if a != "panic" {
            self.g = g;
        }
        a
    }

    pub fn run(&mut self, line: &str) -> Result<Answer, String> {
        let f: Vec<&str> = line.split_whitespace().collect();
        let old = self.in_step.then(|| (self.g.clone(), self.q.clone(), self.b.clone()));
        let a = self.run_fields(&f)?;
        if let (Some((g, q, b)), Some(p)) = (old, &a.paper) {
            // a refusal of the paper's (a number above 0 other than an answer that is a number)
            let changes = ["new", "add", "insactor", "delactor", "load", "bpush", "bgive"].contains(&f[0]);
            if changes && p != "0" {
                (self.g, self.q, self.b) = (g, q, b);
            }
        }
        Ok(a)
    }

    fn run_fields(&mut self, f: &[&str]) -> Result<Answer, String> {
        let both = |rust: String, paper: String| Ok(Answer { rust, paper: Some(paper) });
        match f {
            ["new", a] => {
                let a = num(a)? as usize;
                let p = match Paper::new(self.room, a) {
                    Ok(p) => {
                        self.p = p;
                        "0".into()
                    }
                    Err(n) => n.to_string(),
                };
                self.g = ChangeGraph::new(a);
                both("0".into(), p)
            }
            ["add", h, actor, seq, max, count, deps] => {
                let (h, actor, seq, max, count, deps) =
                    (hash(h)?, num(actor)?, num(seq)?, num(max)?, num(count)?, hashes(deps)?);
                let (n, d) = self.p.add(&h, actor, seq, max, count, &deps);
                let c = Change { hash: h, actor: actor_id(actor), seq, max_op: max, len: count as usize, deps };
                let known = self.g.has_change(&h);
                let r = self.try_graph(|g| match g.add_change(&c, actor as usize) {
                    Ok(()) if known => "3".into(),
                    Ok(()) => "0".into(),
                    Err(m) => format!("4 {}", hex(&m.hash())),
                });
                both(r, d.map_or(n.to_string(), |d| format!("{n} {}", hex(&d))))
            }
            ["heads"] => both(
                guard(|| show_hashes(&self.g.heads().collect::<Vec<_>>())),
                show_hashes(&self.p.heads()),
            ),
            ["headidx"] => both(
                guard(|| show_nums(&self.g.head_indexes().collect::<Vec<_>>())),
                join(self.p.heads(), |h| self.p.find(&h).unwrap().to_string()),
            ),
            ["current", l] => {
                let l = hashes(l)?;
                let set: BTreeSet<ChangeHash> = l.iter().copied().collect();
                both(
                    guard(|| yes(self.g.heads_are_current(&l))),
                    yes(set == self.p.heads().into_iter().collect()),
                )
            }
            ["seqclock", l] => {
                let l = hashes(l)?;
                both(
                    guard(|| show_nums(&seq_nums(&self.g.seq_clock_for_heads(&l)))),
                    show_nums(&self.p.seq_clock(&l)),
                )
            }
            ["opclock", l] => {
                let l = hashes(l)?;
                both(guard(|| show_nums(&op_nums(&self.g.clock_at(&l)))), show_nums(&self.p.op_clock(&l)))
            }
            ["missing", l] => {
                let l = hashes(l)?;
                let r = guard(|| match self.g.get_hashes(&l) {
                    Cow::Borrowed(v) => format!("table {}", show_hashes(v)),
                    Cow::Owned(v) => format!("buffer {}", show_hashes(&v)),
                });
                let w = if l.is_empty() { "table" } else { "buffer" };
                both(r, format!("{w} {}", show_hashes(&self.p.missing(&l))))
            }
            ["owner", a, c] => {
                let (a, c) = (num(a)?, num(c)?);
                let r = guard(|| match self.g.opid_to_hash(OpId::new(c, a as usize)) {
                    Some(h) => hex(&h),
                    None => "14".into(),
                });
                both(r, self.p.owner(a, c).map_or("14".into(), |h| hex(&h)))
            }
            ["hashat", a, s] => {
                let (a, s) = (num(a)?, num(s)?);
                let r = guard(|| match self.g.get_hash_for_actor_seq(a as usize, s) {
                    Ok(h) => hex(&h),
                    Err(AutomergeError::InvalidSeq(_)) => "13".into(),
                    Err(e) => format!("{e:?}"),
                });
                let p = self.p.of_actor(a).find(|n| n.seq == s).map_or("13".into(), |n| hex(&n.hash));
                both(r, p)
            }
            ["seqfor", a] => {
                let a = num(a)?;
                both(guard(|| self.g.seq_for_actor(a as usize).to_string()), self.p.of_actor(a).count().to_string())
            }
            ["maxopfor", a] => {
                let a = num(a)?;
                let r = self.try_graph(|g| g.max_op_for_actor(a as usize).to_string());
                both(r, self.p.of_actor(a).last().map_or(0, |n| n.max).to_string())
            }
            ["maxop"] => both(
                guard(|| self.g.max_op().to_string()),
                self.p.nodes.iter().map(|n| n.max).max().unwrap_or(0).to_string(),
            ),
            ["len"] => both(guard(|| self.g.len().to_string()), self.p.nodes.len().to_string()),
            ["actors"] => both(guard(|| self.g.num_actors().to_string()), self.p.actors.to_string()),
            ["actids", which] => {
                let which = num(which)?;
                let rust = guard(|| {
                    let v: Vec<u64> = match which {
                        0 => self.g.actor_ids().map(|a| a as u64).collect(),
                        1 => self.g.unused_actors().map(|a| a as u64).collect(),
                        _ => self.g.all_actor_ids().map(|a| a as u64).collect(),
                    };
                    show_nums(&v)
                });
                let used = |a: &u64| self.p.of_actor(*a).next().is_some();
                let listed = |a: &u64| which > 1 || used(a) == (which == 0);
                both(rust, show_nums(&(0..self.p.actors as u64).filter(listed).collect::<Vec<_>>()))
            }
            ["deps", h] => {
                let h = hash(h)?;
                let r = guard(|| {
                    let a: Vec<_> = self.g.deps(&h).collect();
                    let b: Vec<_> = self.g.deps_for_hash(&h).collect();
                    if a == b { show_hashes(&a) } else { "deps and deps_for_hash differ".into() }
                });
                let p = self.p.find(&h).map_or(vec![], |n| self.p.nodes[n].deps.clone());
                both(r, join(p, |d| hex(&self.p.nodes[d].hash)))
            }
            ["has", h] => {
                let h = hash(h)?;
                both(guard(|| yes(self.g.has_change(&h))), yes(self.p.find(&h).is_some()))
            }
            ["index", h] => {
                let h = hash(h)?;
                let show = |n: Option<usize>| n.map_or("13".into(), |n: usize| n.to_string());
                both(guard(|| show(self.g.hash_to_index(&h))), show(self.p.find(&h)))
            }
            ["hashof", n] => {
                let n = num(n)? as usize;
                both(
                    guard(|| self.g.index_to_hash(n).map_or("13".into(), hex)),
                    self.p.nodes.get(n).map_or("13".into(), |n| hex(&n.hash)),
                )
            }
            ["insactor", p] => {
                let p = num(p)?;
                let n = self.p.insert_actor(p).to_string();
                let r = self.try_graph(|g| {
                    g.insert_actor(p as usize);
                    "0".into()
                });
                both(r, n)
            }
            ["delactor", p] => {
                let p = num(p)?;
                let n = self.p.remove_actor(p).to_string();
                let r = self.try_graph(|g| {
                    g.remove_actor(p as usize);
                    "0".into()
                });
                both(r, n)
            }
            ["remanc", l, heads] => {
                let (l, heads) = (hashes(l)?, hashes(heads)?);
                let r = guard(|| {
                    let mut set: BTreeSet<ChangeHash> = l.iter().copied().collect();
                    self.g.remove_ancestors(&mut set, &heads);
                    show_hashes(&set)
                });
                both(r, show_hashes(&self.p.remove_ancestors(&l, &heads)))
            }
            ["forget"] => {
                self.p.cache.clear();
                self.g.oracle_forget();
                both("0".into(), "0".into())
            }
            ["cache"] => {
                let v: Vec<String> = self.p.cache.iter().map(|(n, c)| format!("{n}:{}", show_nums(c))).collect();
                let p = if v.is_empty() { "-".into() } else { v.join(";") };
                both(show_cache(&self.g), p)
            }
            ["chained"] => both("none".into(), yes(self.p.chained())).map(|a| Answer { rust: a.paper.unwrap(), paper: None }),
            ["ascend", a] => Ok(Answer { rust: yes(self.p.ranges_ascend(num(a)?)), paper: None }),
            ["tables"] => {
                let nodes: Vec<String> = self
                    .g
                    .oracle_nodes()
                    .iter()
                    .map(|n| format!("{}/{}/{}/{}/{}", n.actor, n.seq, n.max_op, n.num_ops, n.first))
                    .collect();
                let edges: Vec<String> = self.g.oracle_edges().iter().map(|(t, n)| format!("{t}/{n}")).collect();
                let rust = format!("nodes {} edges {}", nodes.join(","), edges.join(","));
                Ok(Answer { rust, paper: None })
            }
            ["load", actors, a, s, m, nd, d, h, k, heads] => {
                let actors = num(actors)? as usize;
                let c = Cols {
                    actors: nums(a)?,
                    seq: nums(s)?,
                    max: nums(m)?,
                    ndeps: nums(nd)?,
                    deps: nums(d)?,
                    hashes: hashes(h)?,
                    counts: nums(k)?,
                    heads: hashes(heads)?,
                };
                let p = match Paper::load(self.room, actors, &c) {
                    Ok(p) => {
                        self.p = p;
                        "0".into()
                    }
                    Err(n) => n.to_string(),
                };
                // A circle through more than 33 nodes makes finalize recurse until the stack ends, which cannot be caught.
                let r = if circle_possible(&c) && std::env::var("ORACLE_UNGUARDED").is_err() {
                    "notcalled".into()
                } else {
                    self.try_graph(|g| match ChangeGraphCols::load(&document(actors, &c)) {
                    Ok(cols) => {
                        *g = cols.finalize(&load_changes(&c));
                        "0".into()
                    }
                    Err(e) => format!("18 {e:?}"),
                    })
                };
                both(r, p)
            }
            // the Rust's own encode, then load and finalize: are the columns, the heads and the cached clocks as before?
            ["reload"] => {
                let r = guard(|| {
                    let mut bytes = vec![];
                    let meta = self.g.encode(&mut bytes);
                    let meta = ChangeGraph::validate(bytes.len(), &meta).unwrap();
                    let cols = columns(&self.g);
                    let doc = Document {
                        actors: (0..self.g.num_actors() as u64).map(actor_id).collect(),
                        meta,
                        bytes: Cow::Owned(bytes),
                        heads: cols.heads.clone(),
                    };
                    match ChangeGraphCols::load(&doc) {
                        Ok(c) => {
                            let new = c.finalize(&load_changes(&cols));
                            let same = format!("{cols:?}") == format!("{:?}", columns(&new));
                            let cached = show_cache(&new) == show_cache(&self.g);
                            format!("columns {} cache {}", yes(same), yes(cached))
                        }
                        Err(e) => format!("18 {e:?}"),
                    }
                });
                Ok(Answer { rust: r, paper: None })
            }
            // one field of the lent tables damaged for the time of one operation: the Rust has no lent tables
            ["damaged", ..] => both("notcalled".into(), "1".into()),
            // clocks
            ["sinclude", c, at, s] => {
                let (mut v, mut c, at) = (nums(c)?, seq_clock(c)?, num(at)? as usize);
                let data = if *s == "none" { None } else { Some(num(s)?) };
                if data.is_some_and(|d| d > u32::MAX as u64) {
                    return Err("sequence above 32 bits".into());
                }
                let r = guard(|| {
                    let b = c.include(at, data.map(|d| d as u32));
                    format!("{} {}", yes(b), show_nums(&seq_nums(&c)))
                });
                let p = if at >= v.len() {
                    "5".into()
                } else {
                    let b = data.is_some_and(|d| v[at] == 0 || v[at] < d);
                    if b {
                        v[at] = data.unwrap();
                    }
                    format!("{} {}", yes(b), show_nums(&v))
                };
                both(r, p)
            }
            ["smerge", a, b] => {
                let (mut v, w) = (nums(a)?, nums(b)?);
                let (mut a, b) = (seq_clock(a)?, seq_clock(b)?);
                let r = guard(|| {
                    SeqClock::merge(&mut a, &b);
                    show_nums(&seq_nums(&a))
                });
                v.iter_mut().zip(&w).for_each(|(x, y)| *x = (*x).max(*y));
                both(r, show_nums(&v))
            }
            ["scovers", a, b] => {
                let (v, w) = (nums(a)?, nums(b)?);
                let (a, b) = (seq_clock(a)?, seq_clock(b)?);
                let p = if v.len() != w.len() { "1".into() } else { yes(v.iter().zip(&w).all(|(x, y)| x >= y)) };
                both(guard(|| yes(a.covers(&b))), p)
            }
            ["sget", c, at] => {
                let (v, c, at) = (nums(c)?, seq_clock(c)?, num(at)? as usize);
                let r = guard(|| c.get_for_actor(&at).map_or(0, |n| n.get()).to_string());
                both(r, v.get(at).copied().unwrap_or(0).to_string())
            }
            ["sinsert", c, at] => {
                let (mut v, mut c, at) = (nums(c)?, seq_clock(c)?, num(at)? as usize);
                let r = guard(|| {
                    c.rewrite_with_new_actor(at);
                    show_nums(&seq_nums(&c))
                });
                let p = if at > v.len() {
                    "12".into()
                } else {
                    v.insert(at, 0);
                    show_nums(&v)
                };
                both(r, p)
            }
            ["sremove", c, at] => {
                let (mut v, mut c, at) = (nums(c)?, seq_clock(c)?, num(at)? as usize);
                let r = guard(|| {
                    c.remove_actor(at);
                    show_nums(&seq_nums(&c))
                });
                let p = if at >= v.len() {
                    "5".into()
                } else {
                    v.remove(at);
                    show_nums(&v)
                };
                both(r, p)
            }
            ["oisolate", c, at] => {
                let (mut v, mut c, at) = (nums(c)?, op_clock(c)?, num(at)? as usize);
                let r = guard(|| {
                    c.isolate(at);
                    show_nums(&op_nums(&c))
                });
                let p = match v.get_mut(at) {
                    Some(e) => {
                        *e = u32::MAX as u64;
                        show_nums(&v)
                    }
                    None => "5".into(),
                };
                both(r, p)
            }
            ["ocovers", c, a, n] => {
                let (v, c, a, n) = (nums(c)?, op_clock(c)?, num(a)? as usize, num(n)?);
                let p = v.get(a).map_or("5".into(), |e| yes(n <= *e));
                both(guard(|| yes(c.covers(&OpId::new(n, a)))), p)
            }
            ["rafter", r] => {
                let parts: Vec<&str> = r.split(':').collect();
                let p = if parts.len() == 1 { "none".into() } else { show_nums(&nums(parts[parts.len() - 1])?) };
                let r = range(r)?;
                both(guard(|| r.after().map_or("none".into(), |c| show_nums(&op_nums(c)))), p)
            }
            [q @ ("rvisafter" | "rvisbefore" | "rpredates"), r, a, n] => {
                let (a, n) = (num(a)? as usize, num(n)?);
                let parts: Vec<&str> = r.split(':').collect();
                // the clock in question, or the fixed answer where the range has none
                let clock = match (*q, parts.len()) {
                    ("rvisafter", 1) => Err("yes"),
                    ("rvisafter", k) => Ok(nums(parts[k - 1])?),
                    (_, 3) => Ok(nums(parts[1])?),
                    _ => Err("no"),
                };
                let p = match clock {
                    Err(fixed) => fixed.into(),
                    Ok(v) => v.get(a).map_or("5".into(), |e| yes(n <= *e)),
                };
                let r = range(r)?;
                let rust = guard(|| {
                    let id = OpId::new(n, a);
                    yes(match *q {
                        "rvisafter" => r.visible_after(&id),
                        "rvisbefore" => r.visible_before(&id),
                        _ => r.predates(&id),
                    })
                });
                both(rust, p)
            }
            // the queue
            ["bnew"] => {
                self.b = ChangeBatch::new();
                self.pb.clear();
                both("0".into(), "0".into())
            }
            ["qnew"] => {
                self.q = ChangeQueue::new();
                self.pq.clear();
                both("0".into(), "0".into())
            }
            ["bpush", h, key, seq, deps] => {
                let (h, key, seq, deps) = (hash(h)?, num(key)?, num(seq)?, hashes(deps)?);
                let n = paper::batch_push(
                    &mut self.pb,
                    self.room.waiting,
                    Rec { hash: h, key, seq, deps: deps.clone() },
                );
                let c = Change { hash: h, actor: actor_id(key), seq, max_op: 0, len: 0, deps };
                let before = self.b.oracle_changes().len();
                let r = guard(|| match self.b.push(c) {
                    Ok(()) if self.b.oracle_changes().len() == before => "3".into(),
                    Ok(()) => "0".into(),
                    Err(AutomergeError::DuplicateSeqNumber(..)) => "16".into(),
                    Err(e) => format!("{e:?}"),
                });
                both(r, n.to_string())
            }
            ["blist"] => both(
                show_hashes(self.b.oracle_changes().iter().map(|c| &c.hash)),
                show_hashes(self.pb.iter().map(|r| &r.hash)),
            ),
            ["bgive"] => {
                let n = paper::batch_give(&mut self.pq, &mut self.pb, self.room.waiting);
                let (mut q, b) = (self.q.clone(), self.b.clone());
                let r = guard(|| {
                    q.extend(b);
                    "0".into()
                });
                if r == "0" {
                    self.q = q;
                    self.b = ChangeBatch::new();
                }
                both(r, n.to_string())
            }
            ["qlist"] => both(
                show_hashes(self.q.iter().map(|c| &c.hash)),
                show_hashes(self.pq.iter().map(|r| &r.hash)),
            ),
            ["qempty"] => both(yes(self.q.is_empty()), yes(self.pq.is_empty())),
            ["qhas", h] => {
                let h = hash(h)?;
                both(guard(|| yes(self.q.has_hash(&h))), yes(self.pq.iter().any(|r| r.hash == h)))
            }
            ["qhasseq", key, seq] => {
                let (key, seq) = (num(key)?, num(seq)?);
                let c = Change { hash: ChangeHash([0; 32]), actor: actor_id(key), seq, max_op: 0, len: 0, deps: vec![] };
                both(
                    guard(|| yes(self.q.has_actor_seq(&c))),
                    yes(self.pq.iter().any(|r| (r.key, r.seq) == (key, seq))),
                )
            }
            ["qpop"] => {
                let g = &self.g;
                let q = &mut self.q;
                let r = guard(|| {
                    let out = q.pop_topo_sorted_ready(g);
                    show_hashes(out.iter().map(|c| &c.hash))
                });
                let p = &self.p;
                let out = paper::ready(&mut self.pq, |h| p.find(h).is_some());
                both(r, show_hashes(out.iter().map(|r| &r.hash)))
            }
            ["qdrop", key, seq] => {
                let (key, seq) = (num(key)?, num(seq)?);
                let q = &mut self.q;
                let r = guard(|| {
                    q.remove_actor_branch_from(&actor_id(key), seq);
                    "0".into()
                });
                paper::drop_branch(&mut self.pq, key, seq);
                both(r, "0".into())
            }
            _ => Err(format!("no such command: {}", f.join(" "))),
        }
    }
}
