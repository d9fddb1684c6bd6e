//! Random and exhaustive comparison of the Rust with the paper's definitions, and of a host that answers the same lines with both.
use crate::paper::{Room, BENCH, FULL};
use crate::session::SPACE;
use crate::world::{columns, hash, hex, short, show_hashes, show_nums, Answer, World};
use std::collections::BTreeMap;
use std::fs;
use std::process::Command;

struct Rng(u64);

impl Rng {
    fn next(&mut self) -> u64 {
        // splitmix64
        self.0 = self.0.wrapping_add(0x9e3779b97f4a7c15);
        let mut z = self.0;
        z = (z ^ (z >> 30)).wrapping_mul(0xbf58476d1ce4e5b9);
        z = (z ^ (z >> 27)).wrapping_mul(0x94d049bb133111eb);
        z ^ (z >> 31)
    }
    fn below(&mut self, n: u64) -> u64 {
        self.next() % n.max(1)
    }
    fn one_in(&mut self, n: u64) -> bool {
        self.below(n) == 0
    }
}

fn scatter(n: u64) -> u64 {
    // node order and hash order must not agree
    n.wrapping_mul(0x9e3779b97f4a7c15) >> 44
}

struct Gen {
    r: Rng,
    names: Vec<String>,
    fresh: u64,
    style: u64,
}

impl Gen {
    fn name(&mut self) -> String {
        self.fresh += 1;
        // now and then a hash with leading zero bytes: those make fragments in the Rust
        match self.r.below(12) {
            0 => format!("{:064x}", scatter(self.fresh)),
            1 | 2 => format!("#{}", scatter(self.fresh)),
            _ => format!("{:016x}{:048x}", scatter(self.fresh) << 40, self.fresh),
        }
    }

    fn some(&mut self, recent: bool) -> String {
        if self.names.is_empty() || self.r.one_in(15) {
            return format!("#{}", 3_000_000 + self.r.below(4));
        }
        let n = self.names.len() as u64;
        let back = if recent { self.r.below(6.min(n)) } else { self.r.below(n) };
        self.names[(n - 1 - back) as usize].clone()
    }

    fn list(&mut self, most: u64) -> String {
        let k = self.r.below(most + 1);
        let v: Vec<String> = (0..k).map(|_| self.some(false)).collect();
        if v.is_empty() { "-".into() } else { v.join(",") }
    }

    fn clock(&mut self) -> String {
        let n = self.r.below(5);
        let v: Vec<String> = (0..n).map(|_| self.r.below(4).to_string()).collect();
        if v.is_empty() { "-".into() } else { v.join(",") }
    }

    fn add(&mut self, w: &World) -> String {
        let beyond = self.r.one_in(40) as u64;
        let a = self.r.below(w.p.actors as u64 + beyond);
        let mut seq = w.p.of_actor(a).count() as u64 + 1;
        if self.r.one_in(40) {
            seq = self.r.below(seq + 2);
        }
        let last = w.p.of_actor(a).last();
        let prev = last.map_or(0, |n| n.max);
        let (max, count) = match self.style % 3 {
            // ranges that ascend, some empty
            0 => {
                let k = self.r.below(4);
                (prev + k + self.r.below(3), k)
            }
            // as automerge does it: above all that is known
            1 => {
                let top = w.p.nodes.iter().map(|n| n.max).max().unwrap_or(0);
                let k = 1 + self.r.below(3);
                (top + k, k)
            }
            // anything
            _ => {
                let m = self.r.below(12);
                (m, self.r.below(m + 1))
            }
        };
        let mut deps: Vec<String> = vec![];
        let known: Vec<String> = w.p.nodes.iter().map(|n| crate::world::hex(&n.hash)).collect();
        if !known.is_empty() {
            let mut k = self.r.below(if self.style & 4 == 0 { 3 } else { 6 });
            if self.style & 32 != 0 && self.r.one_in(10) {
                k = self.r.below(34);
            }
            for _ in 0..k {
                let n = known.len() as u64;
                let back = if self.style & 8 == 0 { self.r.below(8.min(n)) } else { self.r.below(n) };
                deps.push(known[(n - 1 - back) as usize].clone());
            }
            if self.style & 16 != 0 {
                if let Some(l) = last {
                    deps.push(crate::world::hex(&l.hash));
                }
            }
        }
        if self.r.one_in(40) {
            deps.push(format!("#{}", 3_000_000 + self.r.below(4)));
        }
        let h = if self.r.one_in(30) { self.some(false) } else { self.name() };
        self.names.push(h.clone());
        let deps = if deps.is_empty() { "-".into() } else { deps.join(",") };
        format!("add {h} {a} {seq} {max} {count} {deps}")
    }

    /// A field that validity names, and the change or edge whose it is.
    fn damage(&mut self, w: &World) -> String {
        let (n, e) = (w.p.nodes.len() as u64, w.p.edges() as u64);
        let always = ["changes", "edges", "actors", "hashes-1", "nodes-1", "clocks-1", "counts-1", "counts-3"];
        let of_node = ["actor", "sequence", "ops", "first", "head", "flag", "row"];
        let of_edge = ["target", "next"];
        match self.r.below(4) {
            0 if n > 1 => format!("damaged hash {}", 1 + self.r.below(n - 1)),
            1 if e > 0 => format!("damaged {} {}", of_edge[self.r.below(2) as usize], self.r.below(e)),
            2 | 3 if n > 0 => format!("damaged {} {}", of_node[self.r.below(7) as usize], self.r.below(n)),
            _ => format!("damaged {} {}", always[self.r.below(8) as usize], self.r.below(100)),
        }
    }

    fn command(&mut self, w: &World) -> String {
        let na = w.p.actors as u64;
        match self.r.below(60) {
            0..=19 => self.add(w),
            20 => "heads".into(),
            21 => format!("current {}", self.list(3)),
            22 => {
                let mut v: Vec<String> = w.p.heads().iter().map(crate::world::hex).collect();
                if self.r.one_in(3) {
                    v.push(self.some(true));
                }
                if let Some(x) = v.last().cloned() {
                    v.insert(0, x);
                }
                format!("current {}", if v.is_empty() { "-".into() } else { v.join(",") })
            }
            23..=25 => format!("seqclock {}", self.list(4)),
            26 => format!("opclock {}", self.list(4)),
            27..=28 => format!("missing {}", self.list(4)),
            29..=31 => format!("owner {} {}", self.r.below(na + 1), self.r.below(14 + 3 * w.p.nodes.len() as u64)),
            32 => format!("hashat {} {}", self.r.below(na + 1), self.r.below(5)),
            33 => format!("seqfor {}", self.r.below(na + 2)),
            34 => format!("maxopfor {}", self.r.below(na + 2)),
            35 => "maxop".into(),
            36 => format!("deps {}", self.some(false)),
            37 => format!("index {}", self.some(false)),
            38 => format!("hashof {}", self.r.below(w.p.nodes.len() as u64 + 2)),
            39 => format!("insactor {}", self.r.below(na + 2)),
            40 => format!("delactor {}", self.r.below(na + 1)),
            41 => format!("remanc {} {}", self.list(6), self.list(3)),
            42 => format!("has {}", self.some(true)),
            43 => ["tables", "chained", "len", "actors", "actids 0", "actids 1", "actids 2"][self.r.below(7) as usize].into(),
            44 => {
                let q = ["sget", "sinsert", "sremove", "oisolate"][self.r.below(4) as usize];
                format!("{q} {} {}", self.clock(), self.r.below(6))
            }
            45 if self.r.one_in(6) => "forget".into(),
            45 => self.damage(w),
            46 => "cache".into(),
            47 => "headidx".into(),
            48 => {
                let h = if self.r.one_in(3) { self.some(true) } else { self.name() };
                self.names.push(h.clone());
                let mut deps = self.list(4);
                if self.r.one_in(4) && deps != "-" {
                    deps = format!("{deps},{deps}");
                }
                format!("bpush {h} {} {} {deps}", self.r.below(3), self.r.below(6))
            }
            49 | 50 => {
                let h = self.name();
                self.names.push(h.clone());
                let deps: Vec<String> = (0..self.r.below(4)).map(|_| self.some(true)).collect();
                let deps = if deps.is_empty() { "-".into() } else { deps.join(",") };
                format!("bpush {h} {} {} {deps}", self.r.below(5), self.r.below(9))
            }
            51 => "bgive".into(),
            52 => "qlist".into(),
            53 => "qpop".into(),
            54 => format!("qdrop {} {}", self.r.below(5), self.r.below(9)),
            55 if self.r.one_in(2) => format!("ocovers {} {} {}", self.clock(), self.r.below(5), self.r.below(6)),
            55 => format!("qhas {}", self.some(true)),
            56 => format!("sinclude {} {} {}", self.clock(), self.r.below(5), self.r.below(4)),
            57 => format!("smerge {} {}", self.clock(), self.clock()),
            58 => format!("scovers {} {}", self.clock(), self.clock()),
            _ => {
                let r = match self.r.below(3) {
                    0 => "none".to_string(),
                    1 => format!("cur:{}", self.clock()),
                    _ => format!("diff:{}:{}", self.clock(), self.clock()),
                };
                let q = ["rvisafter", "rvisbefore", "rpredates"][self.r.below(3) as usize];
                format!("{q} {r} {} {}", self.r.below(5), self.r.below(5))
            }
        }
    }
}

/// The room of a comparison. The tables of a host are as large.
const ROOM: Room = Room { nodes: 1_024, edges: 4_096, actors: 16, waiting: 32 };

/// A world that keeps what it was asked and what both answered.
struct Told {
    w: World,
    log: Vec<(String, Answer)>,
}

impl std::ops::Deref for Told {
    type Target = World;
    fn deref(&self) -> &World {
        &self.w
    }
}

impl Told {
    fn new() -> Told {
        let mut t = Told { w: World::new(ROOM, true), log: vec![] };
        for c in ["bnew", "qnew"] {
            t.run(c).unwrap();
        }
        t
    }

    fn run(&mut self, line: &str) -> Result<Answer, String> {
        let a = self.w.run(line)?;
        self.log.push((line.to_string(), Answer { rust: a.rust.clone(), paper: a.paper.clone() }));
        Ok(a)
    }
}

/// A program that answers the lines of `drive` over its own tables.
pub struct Host {
    path: String,
    lines: u64,
    wrong: u64,
}

impl Host {
    pub fn new(path: &str) -> Host {
        Host { path: path.to_string(), lines: 0, wrong: 0 }
    }

    /// The lines of a round once more, by the host: its answers are the paper's, and the Rust's where the paper is silent.
    fn compare(&mut self, name: &str, t: &Told) {
        let asked: Vec<&(String, Answer)> = t.log.iter().filter(|(c, _)| c != "reload").collect();
        let file = std::env::temp_dir().join(format!("compare-{}.drive", std::process::id()));
        let text: String = asked.iter().map(|(c, _)| format!("{c}\n")).collect();
        fs::write(&file, &text).unwrap();
        let room = [ROOM.nodes, ROOM.edges, ROOM.actors, ROOM.waiting].map(|n| n.to_string());
        let out = Command::new(&self.path).args(room).stdin(fs::File::open(&file).unwrap()).output().unwrap();
        let answers = String::from_utf8_lossy(&out.stdout).to_string();
        let answers: Vec<&str> = answers.lines().collect();
        self.lines += asked.len() as u64;
        if answers.len() != asked.len() || !out.status.success() {
            self.wrong += 1;
            println!("{name}: {} lines, {} answers, {}", asked.len(), answers.len(), out.status);
        }
        for (i, ((c, a), host)) in asked.iter().zip(&answers).enumerate() {
            let want = a.paper.as_ref().unwrap_or(&a.rust);
            if want != host {
                self.wrong += 1;
                if self.wrong < 20 {
                    println!("{name}, line {}: {}", i + 1, short(&format!("{c} | host {host} | Rust {} | paper {:?}", a.rust, a.paper)));
                    let kept = std::env::temp_dir().join(format!("compare-{}.drive", name.replace(' ', "-")));
                    fs::copy(&file, &kept).unwrap();
                }
            }
        }
        fs::remove_file(&file).unwrap();
    }
}

/// Refused for a limit of the room, where the Rust takes what comes.
fn at_limit(a: &Answer) -> bool {
    a.rust == "0" && matches!(a.paper.as_deref(), Some("8" | "9" | "10" | "12" | "17"))
}

/// Rounds of random commands. Each round's seed is told with what goes wrong in it.
pub fn run(seed: u64, rounds: u64, mut host: Option<Host>) -> i32 {
    let mut parts: BTreeMap<String, (u64, String)> = BTreeMap::new();
    let mut panics: BTreeMap<String, u64> = BTreeMap::new();
    let mut kinds: BTreeMap<String, u64> = BTreeMap::new();
    let (mut reloads, mut leftover, mut cached) = (0u64, 0u64, 0u64);
    for round in 0..rounds {
        let mut r = Rng(seed.wrapping_add(round.wrapping_mul(77777)));
        let style = r.next();
        let mut g = Gen { r, names: vec![], fresh: 0, style };
        let mut w = Told::new();
        w.run(&format!("new {}", 1 + g.r.below(5))).unwrap();
        let steps = [700, 120, 120, 120, 12, 4][g.r.below(6) as usize];
        // now and then a large graph to begin with, its cached clocks thrown away once or twice
        if round % 25 == 24 {
            let n = 300 + g.r.below(600);
            for k in 0..n {
                let c = g.add(&w);
                let a = w.run(&c).unwrap();
                assert!(!a.parts() || at_limit(&a), "{c}: {} {:?}", a.rust, a.paper);
                if k == n / 3 {
                    w.run("forget").unwrap();
                }
                if k % 40 == 0 {
                    let a = w.run("cache").unwrap();
                    assert!(!a.parts(), "cache: {} {:?}", a.rust, a.paper);
                }
            }
        }
        for _ in 0..steps {
            let c = g.command(&w);
            let kind = c.split(' ').next().unwrap().to_string();
            let a = w.run(&c).unwrap();
            *kinds.entry(kind.clone()).or_default() += 1;
            if a.rust == "panic" {
                let key = format!("{kind}, paper {}", a.paper.as_deref().unwrap_or("n/a"));
                *panics.entry(key).or_default() += 1;
            }
            if a.parts() {
                let mut key = kind.clone();
                if at_limit(&a) {
                    key += " (limits)";
                }
                if kind == "owner" {
                    let actor = c.split(' ').nth(1).unwrap().parse().unwrap();
                    key += if w.p.ranges_ascend(actor) { " (ranges ascend)" } else { " (ranges do not ascend)" };
                }
                let e = parts.entry(key).or_insert((0, short(&format!("{c} | Rust {} | paper {}", a.rust, a.paper.unwrap()))));
                e.0 += 1;
            }
        }
        for (n, _) in w.g.oracle_cache() {
            cached += 1;
            leftover += (n % 16 != 15) as u64;
        }
        // the whole state once more at the end, and load of it where load's own rule on max ops holds
        for c in ["heads", "cache", "qlist", "blist", "len", "actors", "missing -"] {
            let a = w.run(c).unwrap();
            assert!(!a.parts(), "{c}: {} {:?}", a.rust, a.paper);
        }
        let a = w.run("reload").unwrap().rust;
        if a.starts_with("columns") {
            reloads += 1;
            assert!(a.starts_with("columns yes"), "{a}");
        } else {
            assert_eq!(a, "18 InvalidMaxOp");
        }
        loads(&mut g, &mut w, &mut parts, &mut panics, &mut kinds);
        let queue = queues(&mut g, &mut parts, &mut panics, &mut kinds);
        if let Some(h) = &mut host {
            h.compare(&format!("seed {seed} round {round}"), &w);
            h.compare(&format!("seed {seed} round {round} queue"), &queue);
        }
    }
    println!("cached clocks at the ends: {cached}, of left over nodes: {leftover}");
    println!("commands run: {kinds:?}");
    println!("loaded again: {reloads} of {rounds}");
    println!("panics of the Rust, by the paper's answer: {panics:?}");
    println!("inside the domain, Rust and paper part:");
    for (k, (n, e)) in &parts {
        let e = if e.len() > 300 { "(long)" } else { e };
        println!("  {k}: {n} times; {e}");
    }
    let listed = |k: &str| k == "owner (ranges do not ascend)" || k.ends_with("(limits)") || k.starts_with("load, added");
    let bad = parts.keys().any(|k| !listed(k));
    println!("{}", if bad { "UNEXPECTED differences" } else { "no difference but for owners of ranges that do not ascend, limits and load's added checks" });
    let Some(h) = host else { return bad as i32 };
    println!("seeds {seed}, rounds 0 to {}: {} operations by the host, {} differences", rounds - 1, h.lines, h.wrong);
    (bad || h.wrong > 0) as i32
}

/// All lists of up to 4 op ranges of one actor with max ops up to 5, and all counters: when is the Rust's owner the paper's?
pub fn owners() -> i32 {
    let names = ["#1", "#2", "#3", "#4"];
    // (label, does the list of (max, count) satisfy it)
    type Test = fn(&[(u64, u64)]) -> bool;
    let tests: [(&str, Test); 5] = [
        ("every first op above the max op before it (count 0 too)", |v| {
            v.windows(2).all(|w| w[1].0 - w[1].1 >= w[0].0)
        }),
        ("the same, asked only of the changes with count above 0", |v| {
            let v: Vec<_> = v.iter().filter(|x| x.1 > 0).collect();
            v.windows(2).all(|w| w[1].0 - w[1].1 >= w[0].0)
        }),
        ("max ops never fall and no two ranges share an op", |v| {
            let rise = v.windows(2).all(|w| w[0].0 <= w[1].0);
            let v: Vec<_> = v.iter().filter(|x| x.1 > 0).collect();
            rise && v.windows(2).all(|w| w[1].0 - w[1].1 >= w[0].0)
        }),
        ("max ops rise and first ops rise (overlaps allowed)", |v| {
            v.windows(2).all(|w| w[0].0 < w[1].0 && w[0].0 - w[0].1 < w[1].0 - w[1].1)
        }),
        ("any list", |_| true),
    ];
    let mut tally = vec![(0u64, 0u64, 0u64, String::new()); tests.len()];
    let pairs: Vec<(u64, u64)> = (0..=5).flat_map(|m| (0..=m).map(move |k| (m, k))).collect();
    for n in 1..=4usize {
        let total = pairs.len().pow(n as u32);
        for code in 0..total {
            let mut c = code;
            let mut v = vec![];
            for _ in 0..n {
                v.push(pairs[c % pairs.len()]);
                c /= pairs.len();
            }
            let mut w = World::new(FULL, false);
            w.run("new 1").unwrap();
            for (i, (m, k)) in v.iter().enumerate() {
                let a = w.run(&format!("add {} 0 {} {m} {k} -", names[i], i + 1)).unwrap();
                assert_eq!(a.rust, "0");
            }
            for counter in 0..=6 {
                let a = w.run(&format!("owner 0 {counter}")).unwrap();
                for (t, (_, test)) in tests.iter().enumerate() {
                    if test(&v) {
                        tally[t].0 += 1;
                        if a.rust == "panic" {
                            tally[t].2 += 1;
                        }
                        if a.parts() {
                            tally[t].1 += 1;
                            if tally[t].3.is_empty() {
                                tally[t].3 = short(&format!(
                                    "(max, count) {v:?} counter {counter}: Rust {} paper {}",
                                    a.rust,
                                    a.paper.as_ref().unwrap()
                                ));
                            }
                        }
                    }
                }
            }
        }
    }
    for (t, (label, _)) in tests.iter().enumerate() {
        println!("{label}: {} questions, {} differ, {} panic; first {}", tally[t].0, tally[t].1, tally[t].2, tally[t].3);
    }
    0
}

/// The queue over twelve hashes, so that circles, repeats, and hashes that are known and wait come up all the time.
fn queues(
    g: &mut Gen,
    parts: &mut BTreeMap<String, (u64, String)>,
    panics: &mut BTreeMap<String, u64>,
    kinds: &mut BTreeMap<String, u64>,
) -> Told {
    let mut w = Told::new();
    w.run("new 1").unwrap();
    for _ in 0..150 {
        let k = g.r.below(5);
        let deps: Vec<String> = (0..k).map(|_| format!("#{}", g.r.below(12))).collect();
        let deps = if deps.is_empty() { "-".into() } else { deps.join(",") };
        let h = g.r.below(12);
        let c = match g.r.below(16) {
            0..=6 => format!("bpush #{h} {} {} {deps}", g.r.below(4), g.r.below(6)),
            7..=9 => "bgive".into(),
            10 => "qpop".into(),
            11 => format!("qdrop {} {}", g.r.below(4), g.r.below(7)),
            12 => "qlist".into(),
            13 => format!("qhasseq {} {}", g.r.below(4), g.r.below(6)),
            14 => format!("qhas #{h}"),
            _ if g.r.one_in(3) => format!("add #{h} 0 {} 1 0 -", w.p.nodes.len() + 1),
            _ if g.r.one_in(8) => "new 1".into(),
            _ => "bnew".into(),
        };
        let kind = c.split(' ').next().unwrap().to_string();
        let a = w.run(&c).unwrap();
        *kinds.entry(kind.clone()).or_default() += 1;
        if a.rust == "panic" {
            *panics.entry(format!("{kind}, paper {}", a.paper.as_deref().unwrap_or("n/a"))).or_default() += 1;
        }
        if a.parts() {
            let limit = if at_limit(&a) { " (limits)" } else { "" };
            let e = parts.entry(kind + limit).or_insert((0, short(&format!("{c} | {} | {:?}", a.rust, a.paper))));
            e.0 += 1;
        }
    }
    w
}

/// Loads the graph's columns, whole and with one place changed.
fn loads(
    g: &mut Gen,
    w: &mut Told,
    parts: &mut BTreeMap<String, (u64, String)>,
    panics: &mut BTreeMap<String, u64>,
    kinds: &mut BTreeMap<String, u64>,
) {
    let whole = columns(&w.g);
    let actors = w.p.actors;
    for turn in 0..12 {
        let mut c = whole.clone();
        // ops that load takes: no max op below a dependency's
        let mut at = 0;
        for i in 0..c.max.len() {
            for _ in 0..c.ndeps[i] {
                c.max[i] = c.max[i].max(c.max[c.deps[at] as usize]);
                at += 1;
            }
        }
        let n = c.actors.len() as u64;
        let mut what = "nothing changed";
        if turn > 0 {
            let place = |g: &mut Gen, len: usize| g.r.below(len as u64) as usize;
            match g.r.below(9) {
                0 if n > 0 => {
                    let i = place(g, c.actors.len());
                    c.actors[i] = g.r.below(actors as u64 + 1);
                    what = "actor";
                }
                1 if n > 0 => {
                    let i = place(g, c.seq.len());
                    c.seq[i] = g.r.below(c.seq[i] + 2);
                    what = "sequence";
                }
                2 if n > 0 => {
                    let i = place(g, c.max.len());
                    c.max[i] = g.r.below(c.max[i] + 2);
                    what = "max op";
                }
                3 if n > 0 => {
                    let i = place(g, c.ndeps.len());
                    c.ndeps[i] = g.r.below(c.ndeps[i] + 2);
                    what = "dependency count";
                }
                4 if !c.deps.is_empty() => {
                    let i = place(g, c.deps.len());
                    c.deps[i] = g.r.below(n + 1);
                    what = "dependency";
                }
                5 if n > 0 => {
                    let (i, j) = (place(g, c.hashes.len()), place(g, c.hashes.len()));
                    c.hashes[i] = c.hashes[j];
                    what = "hash";
                }
                6 if n > 0 => {
                    let i = place(g, c.counts.len());
                    c.counts[i] = g.r.below(c.max[i] + 3);
                    what = "op count";
                }
                7 => {
                    let h = g.some(false);
                    if c.heads.is_empty() || g.r.one_in(2) {
                        c.heads.push(hash(&h).unwrap());
                    } else {
                        c.heads.remove(0);
                    }
                    what = "heads";
                }
                8 => {
                    let extra = g.r.one_in(2);
                    let v = match g.r.below(6) {
                        0 => &mut c.actors,
                        1 => &mut c.seq,
                        2 => &mut c.max,
                        3 => &mut c.ndeps,
                        4 => &mut c.counts,
                        _ => &mut c.deps,
                    };
                    if extra {
                        v.push(0);
                    } else {
                        v.pop();
                    }
                    what = "column length";
                }
                _ => {}
            }
        }
        let line = format!(
            "load {actors} {} {} {} {} {} {} {} {}",
            show_nums(&c.actors),
            show_nums(&c.seq),
            show_nums(&c.max),
            show_nums(&c.ndeps),
            show_nums(&c.deps),
            show_hashes(&c.hashes),
            show_nums(&c.counts),
            show_hashes(&c.heads)
        );
        *kinds.entry("load".into()).or_default() += 1;
        let a = w.run(&line).unwrap();
        let paper = a.paper.clone().unwrap();
        if a.rust == "panic" {
            *panics.entry(format!("load, paper {paper}")).or_default() += 1;
        }
        if a.parts() {
            // paper 18 and Rust 0: one of the checks that the paper adds; the other way round is not expected
            let key = if paper == "18" { format!("load, added: {what}") } else { "load".into() };
            let e = parts.entry(key).or_insert((0, String::new()));
            e.0 += 1;
            let text = short(&format!("{line} | Rust {} | paper {paper}", a.rust));
            if e.1.is_empty() || text.len() < e.1.len() {
                e.1 = text;
            }
        }
        if paper == "0" {
            assert!(a.rust == "0", "{line}: {}", a.rust);
            for q in ["heads", "cache", "missing -", "maxop", "headidx"] {
                let a = w.run(q).unwrap();
                assert!(!a.parts(), "after load, {q}: {} {:?}", a.rust, a.paper);
            }
            for _ in 0..6 {
                let l = g.list(3);
                for q in ["seqclock", "opclock", "missing"] {
                    let a = w.run(&format!("{q} {l}")).unwrap();
                    assert!(!a.parts(), "after load, {q} {l}: {} {:?}", a.rust, a.paper);
                }
            }
        }
    }
}

/// A random text session inside the bench room and both spaces; owners are asked where ranges ascend unless `any`.
pub fn gen_session(seed: u64, lines: u64, any: bool) -> String {
    let mut r = Rng(seed);
    let mut style = r.next();
    if !any {
        style = style - style % 3 + r.below(2);
    }
    let mut g = Gen { r, names: vec![], fresh: 0, style };
    let mut w = World::new(BENCH, true);
    let actors = 1 + g.r.below(16);
    w.run(&format!("new {actors}")).unwrap();
    let mut out = format!("change list\t1\nactors\t{actors}\n");
    let mut room = 40_000i64; // for answers
    let full = |s: &str| -> String {
        if s == "-" {
            return s.into();
        }
        s.split(',').map(|h| hex(&hash(h).unwrap())).collect::<Vec<_>>().join(",")
    };
    for _ in 0..lines {
        let line = match g.r.below(10) {
            0 => "heads".to_string(),
            1 => format!("clock\t{}", full(&g.list(4))),
            2 => format!("missing\t{}", full(&g.list(4))),
            3 => {
                let a = g.r.below(actors + 1);
                if !any && !w.p.ranges_ascend(a) {
                    continue;
                }
                format!("owner\t{a}\t{}", g.r.below(3 + w.p.of_actor(a).last().map_or(9, |n| n.max)))
            }
            _ => {
                let c = g.add(&w);
                let f: Vec<&str> = c.split(' ').collect();
                w.run(&c).unwrap();
                format!("add\t{}\t{}\t{}\t{}\t{}\t{}", full(f[1]), f[2], f[3], f[4], f[5], full(f[6]))
            }
        };
        room -= 80 + if line.starts_with("missing") || line == "heads" { 65 * w.p.nodes.len() as i64 } else { 0 };
        if line.len() > 2_400 || out.len() + line.len() + 1 > SPACE || room < 0 {
            break;
        }
        out += &line;
        out.push('\n');
    }
    out
}

/// Random commands for `drive`.
pub fn gen_drive(seed: u64, steps: u64) -> String {
    let mut r = Rng(seed);
    let style = r.next();
    let mut g = Gen { r, names: vec![], fresh: 0, style };
    let mut w = World::new(FULL, true);
    let mut out = format!("new {}\n", 1 + g.r.below(5));
    w.run(out.trim()).unwrap();
    for _ in 0..steps {
        let c = g.command(&w);
        w.run(&c).unwrap();
        out += &c;
        out.push('\n');
    }
    out
}
