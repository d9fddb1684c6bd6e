//! Times and instruction counts of the Rust and of the archive on the same inputs, in one run. Built with the feature `archive`, which links both.
//! A case is prepared, and then one call is measured; `bench` repeats each case and keeps the fastest, `bench once NAME SIDE` runs one side once inside
//! `measured`, for a tool that counts instructions.
use crate::change_graph::ChangeGraph;
use crate::change_queue::{ChangeBatch, ChangeQueue};
use crate::types::OpId;
use crate::world::actor_id;
use crate::{Change, ChangeHash};
use std::hint::black_box;
use std::time::Instant;

type Size = usize;

#[repr(C)]
#[derive(Clone, Copy, Default)]
pub struct Edge {
    target: u32,
    next: u32,
}

#[rustfmt::skip]
extern "C" {
    fn cg_open(h: *const u8, hl: Size, n: *const u32, nl: Size, e: *const Edge, el: Size, c: *const u32, cl: Size, u: *mut u32, ul: Size, actors: u64) -> u32;
    fn cg_add(h: *mut u8, hl: Size, n: *mut u32, nl: Size, e: *mut Edge, el: Size, c: *mut u32, cl: Size, u: *mut u32, ul: Size,
        hash: *const u8, hash_len: Size, actor: u64, seq: u64, max: u64, ops: u64, deps: *const u8, deps_len: Size, unknown: *mut u64, unknown_len: Size) -> u32;
    fn cg_clock_of(h: *const u8, hl: Size, n: *const u32, nl: Size, e: *const Edge, el: Size, c: *const u32, cl: Size, u: *const u32, ul: Size,
        list: *const u8, list_len: Size, out: *mut u32, out_len: Size, told: *mut u64, told_len: Size) -> u32;
    fn cg_missing(h: *const u8, hl: Size, n: *const u32, nl: Size, e: *const Edge, el: Size, c: *const u32, cl: Size, u: *const u32, ul: Size,
        have: *const u8, have_len: Size, out: *mut u8, out_len: Size, told: *mut u64, told_len: Size) -> u32;
    fn cg_owner(h: *const u8, hl: Size, n: *const u32, nl: Size, e: *const Edge, el: Size, c: *const u32, cl: Size, u: *const u32, ul: Size,
        actor: u64, counter: u64, out: *mut u8, out_len: Size, told: *mut u64, told_len: Size) -> u32;
    fn cg_len(h: *const u8, hl: Size, n: *const u32, nl: Size, e: *const Edge, el: Size, c: *const u32, cl: Size, u: *const u32, ul: Size, told: *mut u64, told_len: Size) -> u32;
    fn cg_queue_open(h: *const u8, hl: Size, n: *const u64, nl: Size, d: *const u8, dl: Size, c: *mut u32, cl: Size) -> u32;
    fn cg_batch_push(h: *mut u8, hl: Size, n: *mut u64, nl: Size, d: *mut u8, dl: Size, c: *mut u32, cl: Size,
        hash: *const u8, hash_len: Size, key: u64, seq: u64, max: u64, ops: u64, deps: *const u8, deps_len: Size) -> u32;
    fn cg_release(gh: *const u8, ghl: Size, gn: *const u32, gnl: Size, e: *const Edge, el: Size, k: *const u32, kl: Size, u: *const u32, ul: Size,
        h: *mut u8, hl: Size, n: *mut u64, nl: Size, d: *mut u8, dl: Size, c: *mut u32, cl: Size,
        th: *mut u8, thl: Size, tn: *mut u64, tnl: Size, td: *mut u8, tdl: Size, told: *mut u64, told_len: Size) -> u32;
    fn bare_add(h: *mut u8, hl: Size, n: *mut u32, nl: Size, t: *mut u32, tl: Size, x: *mut u32, xl: Size, c: *mut u32, cl: Size, u: *mut u32, ul: Size,
        hash: *const u8, hash_len: Size, actor: u64, seq: u64, max: u64, ops: u64, deps: *const u8, deps_len: Size) -> u32;
    fn bare_clock(h: *const u8, hl: Size, n: *const u32, nl: Size, t: *const u32, tl: Size, x: *const u32, xl: Size, c: *const u32, cl: Size, u: *const u32, ul: Size,
        list: *const u8, list_len: Size, out: *mut u32, out_len: Size) -> u32;
    fn bare_missing(h: *const u8, hl: Size, n: *const u32, nl: Size, t: *const u32, tl: Size, x: *const u32, xl: Size, c: *const u32, cl: Size, u: *const u32, ul: Size,
        have: *const u8, have_len: Size, out: *mut u8, out_len: Size) -> u32;
    fn bare_owner(h: *const u8, hl: Size, n: *const u32, nl: Size, t: *const u32, tl: Size, x: *const u32, xl: Size, c: *const u32, cl: Size, u: *const u32, ul: Size,
        actor: u64, counter: u64, out: *mut u8, out_len: Size) -> u32;
}

const N: usize = 4096;
const E: usize = 16384;
const A: usize = 64;
const Q: usize = 256;

/// The hub's tables, with the edges in both forms.
#[derive(Clone)]
struct Lent {
    hashes: Vec<u8>,
    nodes: Vec<u32>,
    targets: Vec<u32>,
    nexts: Vec<u32>,
    edges: Vec<Edge>,
    clocks: Vec<u32>,
    counts: Vec<u32>,
}

/// A change of a case: its number is its node.
#[derive(Clone)]
struct Plan {
    hash: [u8; 32],
    actor: usize,
    seq: u64,
    max: u64,
    deps: Vec<usize>,
}

fn mixed(n: u64) -> u64 {
    let mut z = n.wrapping_add(0x9e3779b97f4a7c15);
    z = (z ^ (z >> 30)).wrapping_mul(0xbf58476d1ce4e5b9);
    z = (z ^ (z >> 27)).wrapping_mul(0x94d049bb133111eb);
    z ^ (z >> 31)
}

fn hash_of(n: u64) -> [u8; 32] {
    let mut h = [0u8; 32];
    for i in 0..4 {
        h[8 * i..8 * i + 8].copy_from_slice(&mixed(4 * n + i as u64).to_be_bytes());
    }
    h
}

/// `chain`: one after the other, from 40 devices in turn. `merging`: 40 devices, each on its own last change and on another's. `wide`: 40 devices, each on
/// its own last change alone.
fn plan(shape: &str, n: usize) -> Vec<Plan> {
    let mut last: Vec<Option<usize>> = vec![None; 40];
    let mut seq = vec![0u64; 40];
    (0..n)
        .map(|k| {
            let a = k % 40;
            let other = (mixed(k as u64) % 40) as usize;
            let mut deps = vec![];
            match shape {
                "chain" => deps.extend(k.checked_sub(1)),
                "merging" => {
                    deps.extend(last[a]);
                    deps.extend(last[other].filter(|_| other != a));
                }
                _ => deps.extend(last[a]),
            }
            last[a] = Some(k);
            seq[a] += 1;
            Plan { hash: hash_of(k as u64), actor: a, seq: seq[a], max: 3 * k as u64 + 3, deps }
        })
        .collect()
}

fn change(p: &Plan, plan: &[Plan]) -> Change {
    let deps = p.deps.iter().map(|d| ChangeHash(plan[*d].hash)).collect();
    Change { hash: ChangeHash(p.hash), actor: actor_id(p.actor as u64), seq: p.seq, max_op: p.max, len: 3, deps }
}

fn bytes(p: &Plan, plan: &[Plan]) -> Vec<u8> {
    p.deps.iter().flat_map(|d| plan[*d].hash).collect()
}

impl Lent {
    fn new(n: usize) -> Lent {
        let mut l = Lent {
            hashes: vec![0; 32 * n],
            nodes: vec![0; 6 * n],
            targets: vec![0; E],
            nexts: vec![0; E],
            edges: vec![Edge::default(); E],
            clocks: vec![0; n * A],
            counts: vec![0; 3],
        };
        let r = unsafe {
            cg_open(
                l.hashes.as_ptr(), l.hashes.len(), l.nodes.as_ptr(), l.nodes.len(), l.edges.as_ptr(), E, l.clocks.as_ptr(), l.clocks.len(),
                l.counts.as_mut_ptr(), 3, 40,
            )
        };
        assert_eq!(r, 0);
        l
    }

    fn add(&mut self, p: &Plan, deps: &[u8]) -> u32 {
        unsafe {
            bare_add(
                self.hashes.as_mut_ptr(), self.hashes.len(), self.nodes.as_mut_ptr(), self.nodes.len(), self.targets.as_mut_ptr(), E, self.nexts.as_mut_ptr(), E,
                self.clocks.as_mut_ptr(), self.clocks.len(), self.counts.as_mut_ptr(), 3, p.hash.as_ptr(), 32, p.actor as u64, p.seq, p.max, 3, deps.as_ptr(), deps.len(),
            )
        }
    }

    fn pack(&mut self) {
        for i in 0..E {
            self.edges[i] = Edge { target: self.targets[i], next: self.nexts[i] };
        }
    }

    fn add_public(&mut self, p: &Plan, deps: &[u8]) -> u32 {
        let mut place = [0u64; 1];
        unsafe {
            cg_add(
                self.hashes.as_mut_ptr(), self.hashes.len(), self.nodes.as_mut_ptr(), self.nodes.len(), self.edges.as_mut_ptr(), E, self.clocks.as_mut_ptr(),
                self.clocks.len(), self.counts.as_mut_ptr(), 3, p.hash.as_ptr(), 32, p.actor as u64, p.seq, p.max, 3, deps.as_ptr(), deps.len(), place.as_mut_ptr(), 1,
            )
        }
    }
}

macro_rules! plain {
    ($f:ident, $l:expr, $($more:expr),*) => {
        unsafe {
            $f($l.hashes.as_ptr(), $l.hashes.len(), $l.nodes.as_ptr(), $l.nodes.len(), $l.targets.as_ptr(), E, $l.nexts.as_ptr(), E, $l.clocks.as_ptr(), $l.clocks.len(),
                $l.counts.as_ptr(), 3, $($more),*)
        }
    };
}

macro_rules! public {
    ($f:ident, $l:expr, $($more:expr),*) => {
        unsafe {
            $f($l.hashes.as_ptr(), $l.hashes.len(), $l.nodes.as_ptr(), $l.nodes.len(), $l.edges.as_ptr(), E, $l.clocks.as_ptr(), $l.clocks.len(),
                $l.counts.as_ptr(), 3, $($more),*)
        }
    };
}

/// Copies made ahead of the measured call, and kept after it; a run that has to make new ones is not the fastest.
struct Ready<T: Clone> {
    from: T,
    made: Vec<T>,
    used: Vec<T>,
}

impl<T: Clone> Ready<T> {
    fn new(from: T) -> Ready<T> {
        let made = vec![from.clone(); 8];
        Ready { from, made, used: Vec::with_capacity(8) }
    }

    fn next(&mut self) -> &mut T {
        if self.made.is_empty() {
            self.used.clear();
            self.made = vec![self.from.clone(); 8];
        }
        let next = self.made.pop().unwrap();
        self.used.push(next);
        self.used.last_mut().unwrap()
    }
}

/// What is measured. Nothing is inlined into it, so that a tool can find it by its name.
#[inline(never)]
fn measured(f: &mut dyn FnMut() -> u64) -> u64 {
    f()
}

/// The sides of a case: the Rust, the core without checks, the public operation. A side that is not there is left out of the table.
struct Case {
    name: String,
    /// how many operations one call of a side is
    operations: u64,
    sides: [Option<Box<dyn FnMut() -> u64>>; 3],
}

const SIDES: [&str; 3] = ["rust", "core", "public"];

fn built(shape: &str, n: usize) -> (Vec<Plan>, ChangeGraph, Lent) {
    let p = plan(shape, n);
    let mut g = ChangeGraph::new(40);
    let mut l = Lent::new(n.max(256));
    for c in &p {
        g.add_change(&change(c, &p), c.actor).unwrap();
        assert_eq!(l.add(c, &bytes(c, &p)), 0);
    }
    l.pack();
    (p, g, l)
}

fn adding(shape: &'static str, n: usize) -> Case {
    let p = plan(shape, n);
    let changes: Vec<Change> = p.iter().map(|c| change(c, &p)).collect();
    let lists: Vec<Vec<u8>> = p.iter().map(|c| bytes(c, &p)).collect();
    let (p2, c2) = (p.clone(), changes.clone());
    Case {
        name: format!("add {n}, {shape}"),
        operations: n as u64,
        sides: [
            Some(Box::new(move || {
                let mut g = ChangeGraph::new(40);
                for (c, p) in c2.iter().zip(&p2) {
                    g.add_change(c, p.actor).unwrap();
                }
                g.len() as u64
            })),
            Some(Box::new(move || {
                let mut l = Lent::new(n);
                for (p, d) in p.iter().zip(&lists) {
                    assert_eq!(l.add(p, d), 0);
                }
                l.counts[0] as u64
            })),
            None,
        ],
    }
}

/// One more change on a graph of n - 1.
fn adding_one(n: usize) -> Case {
    let (p, g, l) = built("merging", n - 1);
    let mut l = l;
    let all = plan("merging", n);
    let last = all[n - 1].clone();
    let (c, d) = (change(&last, &all), bytes(&last, &all));
    let (d2, last2) = (d.clone(), last.clone());
    let mut grown = Lent::new(n);
    grown.hashes[..32 * (n - 1)].copy_from_slice(&l.hashes[..32 * (n - 1)]);
    grown.nodes[..6 * (n - 1)].copy_from_slice(&l.nodes[..6 * (n - 1)]);
    grown.clocks[..A * (n - 1)].copy_from_slice(&l.clocks[..A * (n - 1)]);
    grown.targets.copy_from_slice(&l.targets);
    grown.nexts.copy_from_slice(&l.nexts);
    grown.counts.copy_from_slice(&l.counts);
    grown.pack();
    l = grown;
    drop(p);
    let (mut graphs, mut core, mut whole) = (Ready::new(g), Ready::new(l.clone()), Ready::new(l));
    Case {
        name: format!("add one to {}", n - 1),
        operations: 1,
        sides: [
            Some(Box::new(move || {
                let g = graphs.next();
                g.add_change(&c, last.actor).unwrap();
                g.len() as u64
            })),
            Some(Box::new(move || core.next().add(&last2, &d) as u64)),
            Some(Box::new(move || whole.next().add_public(&all[n - 1], &d2) as u64)),
        ],
    }
}

fn asking(shape: &'static str, n: usize) -> Vec<Case> {
    let (p, g, l) = built(shape, n);
    let mut cases = vec![];
    let heads: Vec<ChangeHash> = g.heads().collect();
    let list: Vec<u8> = heads.iter().flat_map(|h| h.0).collect();
    {
        let (g, l, l2, list, list2, heads) = (g.clone(), l.clone(), l.clone(), list.clone(), list.clone(), heads.clone());
        let (mut out, mut out2, mut told) = ([0u32; A], [0u32; A], [0u64; 1]);
        cases.push(Case {
            name: format!("clock of the {} heads of {n}, {shape}", heads.len()),
            operations: 1,
            sides: [
                Some(Box::new(move || g.seq_clock_for_heads(&heads).0.len() as u64)),
                Some(Box::new(move || plain!(bare_clock, l, list.as_ptr(), list.len(), out.as_mut_ptr(), A) as u64)),
                Some(Box::new(move || public!(cg_clock_of, l2, list2.as_ptr(), list2.len(), out2.as_mut_ptr(), A, told.as_mut_ptr(), 1) as u64)),
            ],
        });
    }
    // 40 tablets, each so many changes behind
    for behind in [0usize, 40, 400, n].into_iter().filter(|b| *b <= n) {
        let at = |t: usize| (n - 1).saturating_sub(behind + t);
        let haves: Vec<ChangeHash> = (0..40).map(|t| if behind == n { ChangeHash([1; 32]) } else { ChangeHash(p[at(t)].hash) }).collect();
        let (g, l, l2, h2, h3) = (g.clone(), l.clone(), l.clone(), haves.clone(), haves.clone());
        let (mut out, mut out2, mut told) = (vec![0u8; 32 * N], vec![0u8; 32 * N], [0u64; 1]);
        cases.push(Case {
            name: format!("missing for 40 tablets, {behind} behind, of {n}, {shape}"),
            operations: 40,
            sides: [
                Some(Box::new(move || haves.iter().map(|h| g.get_hashes(&[*h]).len() as u64).sum())),
                Some(Box::new(move || h2.iter().map(|h| plain!(bare_missing, l, h.0.as_ptr(), 32, out.as_mut_ptr(), out.len()) as u64).sum())),
                if n <= 256 {
                    Some(Box::new(move || h3.iter().map(|h| public!(cg_missing, l2, h.0.as_ptr(), 32, out2.as_mut_ptr(), out2.len(), told.as_mut_ptr(), 1) as u64).sum()))
                } else {
                    None
                },
            ],
        });
    }
    {
        let (l2, l3) = (l.clone(), l.clone());
        let top = 3 * n as u64;
        let (mut out, mut out2, mut told) = ([0u8; 32], [0u8; 32], [0u64; 1]);
        let asked: Vec<(u64, usize)> = (0..64u64).map(|i| (1 + mixed(i) % top, ((mixed(i) % top) / 3 % 40) as usize)).collect();
        let (a2, a3) = (asked.clone(), asked[..1].to_vec());
        cases.push(Case {
            name: format!("owner of 64 ops of {n}, {shape}"),
            operations: 64,
            sides: [
                Some(Box::new(move || asked.iter().map(|(c, a)| g.opid_to_hash(OpId::new(*c, *a)).is_some() as u64).sum())),
                Some(Box::new(move || a2.iter().map(|(c, a)| (plain!(bare_owner, l2, *a as u64, *c, out.as_mut_ptr(), 32) == 0) as u64).sum())),
                if n <= 256 {
                    Some(Box::new(move || a3.iter().cycle().take(64).map(|(c, a)| public!(cg_owner, l3, *a as u64, *c, out2.as_mut_ptr(), 32, told.as_mut_ptr(), 1) as u64).sum()))
                } else {
                    None
                },
            ],
        });
    }
    let mut told = [0u64; 1];
    // cg_len answers from the counts, so its cost is the check's
    cases.push(Case {
        name: format!("the check of what is lent, of {n}, {shape}"),
        operations: 1,
        sides: [None, None, Some(Box::new(move || public!(cg_len, l, told.as_mut_ptr(), 1) as u64))],
    });
    cases
}

/// 256 waiting changes, each on the one before it, in an order that is not theirs; all become ready.
fn releasing() -> Case {
    let p = plan("chain", Q);
    let order: Vec<usize> = (0..Q).map(|i| (i * 101) % Q).collect();
    let changes: Vec<Change> = order.iter().map(|i| change(&p[*i], &p)).collect();
    let mut batch = ChangeBatch::new();
    for c in &changes {
        batch.push(c.clone()).unwrap();
    }
    let mut q = ChangeQueue::new();
    q.extend(batch);
    let g = ChangeGraph::new(40);
    let (mut h, mut n, mut d, mut c) = (vec![0u8; 32 * Q], vec![0u64; 5 * Q], vec![0u8; 1024 * Q], vec![0u32; 1]);
    unsafe {
        assert_eq!(cg_queue_open(h.as_ptr(), h.len(), n.as_ptr(), n.len(), d.as_ptr(), d.len(), c.as_mut_ptr(), 1), 0);
        for i in &order {
            let (x, deps) = (&p[*i], bytes(&p[*i], &p));
            let r = cg_batch_push(h.as_mut_ptr(), h.len(), n.as_mut_ptr(), n.len(), d.as_mut_ptr(), d.len(), c.as_mut_ptr(), 1, x.hash.as_ptr(), 32, x.actor as u64, x.seq, x.max, 3, deps.as_ptr(), deps.len());
            assert_eq!(r, 0);
        }
    }
    let (mut th, mut tn, mut td, mut told) = (h.clone(), n.clone(), d.clone(), [0u64; 1]);
    let empty = Lent::new(Q);
    let (mut queues, mut tables) = (Ready::new(q), Ready::new((h, n, d, c)));
    Case {
        name: format!("release of {Q}"),
        operations: Q as u64,
        sides: [
            Some(Box::new(move || queues.next().pop_topo_sorted_ready(&g).len() as u64)),
            None,
            Some(Box::new(move || {
                let (h, n, d, c) = tables.next();
                let r = public!(
                    cg_release, empty, h.as_mut_ptr(), h.len(), n.as_mut_ptr(), n.len(), d.as_mut_ptr(), d.len(), c.as_mut_ptr(), 1, th.as_mut_ptr(), th.len(),
                    tn.as_mut_ptr(), tn.len(), td.as_mut_ptr(), td.len(), told.as_mut_ptr(), 1
                );
                assert_eq!((r, told[0]), (0, Q as u64));
                told[0]
            })),
        ],
    }
}

/// All cases, or those prepared with the one of that name.
fn cases(only: Option<&str>) -> Vec<Case> {
    let wanted = |end: String| only.is_none_or(|name| name.ends_with(&end));
    let mut v = vec![];
    for shape in ["chain", "merging", "wide"] {
        if wanted(format!("add {N}, {shape}")) {
            v.push(adding(shape, N));
        }
    }
    for n in [256, N] {
        if wanted(format!("add one to {}", n - 1)) {
            v.push(adding_one(n));
        }
    }
    if wanted(format!("release of {Q}")) {
        v.push(releasing());
    }
    for (shape, n) in [("merging", 256), ("merging", N), ("chain", N)] {
        if wanted(format!("of {n}, {shape}")) {
            v.extend(asking(shape, n));
        }
    }
    v
}

fn fastest(f: &mut dyn FnMut() -> u64) -> f64 {
    let mut best = f64::MAX;
    let begun = Instant::now();
    let mut turns = 0;
    while turns < 5 || (begun.elapsed().as_millis() < 300 && turns < 2000) {
        let t = Instant::now();
        black_box(measured(f));
        best = best.min(t.elapsed().as_secs_f64());
        turns += 1;
        if turns >= 2 && begun.elapsed().as_secs() > 5 {
            break;
        }
    }
    best
}

fn shown(seconds: Option<f64>, operations: u64) -> String {
    seconds.map_or("-".into(), |s| format!("{:.2}", s * 1e6 / operations as f64))
}

pub fn run() -> i32 {
    println!("microseconds an operation, the fastest of several runs; ratios to the Rust");
    println!("| case | Rust | core | ratio | public | ratio |");
    println!("|---|---|---|---|---|---|");
    for mut c in cases(None) {
        let times: Vec<Option<f64>> = c.sides.iter_mut().map(|s| s.as_mut().map(|f| fastest(&mut **f))).collect();
        let ratio = |i: usize| match (times[0], times[i]) {
            (Some(r), Some(t)) => format!("{:.2}", t / r),
            _ => "-".into(),
        };
        let o = c.operations;
        println!("| {} | {} | {} | {} | {} | {} |", c.name, shown(times[0], o), shown(times[1], o), ratio(1), shown(times[2], o), ratio(2));
    }
    0
}

/// The names of the cases and their sides, a line each.
pub fn names() -> i32 {
    for c in cases(None) {
        for (i, s) in c.sides.iter().enumerate() {
            if s.is_some() {
                println!("{}\t{}\t{}", c.name, SIDES[i], c.operations);
            }
        }
    }
    0
}

pub fn once(name: &str, side: &str) -> i32 {
    for mut c in cases(Some(name)) {
        if c.name == name {
            let i = SIDES.iter().position(|s| *s == side).unwrap();
            black_box(measured(&mut **c.sides[i].as_mut().unwrap()));
            return 0;
        }
    }
    2
}
