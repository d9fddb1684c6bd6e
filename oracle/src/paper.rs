//! Document 01's definitions, written out naively and on purpose without a thought for speed. The oracle's answers are
//! compared with these to find where the Rust and the paper part.
use crate::types::ChangeHash as H;
use std::collections::{BTreeMap, BTreeSet, HashSet};

#[derive(Clone, Copy)]
pub struct Room {
    pub nodes: usize,
    pub edges: usize,
    pub actors: usize,
    pub waiting: usize,
}

pub const FULL: Room = Room { nodes: 4096, edges: 16384, actors: 64, waiting: 256 };
pub const BENCH: Room = Room { nodes: 256, edges: 1024, actors: 16, waiting: 256 };
const MAX: u64 = u32::MAX as u64;

#[derive(Clone, Debug)]
pub struct Node {
    pub hash: H,
    pub actor: usize,
    pub seq: u64,
    pub max: u64,
    pub count: u64,
    pub deps: Vec<usize>,
}

#[derive(Clone)]
pub struct Paper {
    pub room: Room,
    pub actors: usize,
    pub nodes: Vec<Node>,
    pub cache: BTreeMap<usize, Vec<u64>>,
}

/// The decoded columns of load.
#[derive(Clone, Debug, Default)]
pub struct Cols {
    pub actors: Vec<u64>,
    pub seq: Vec<u64>,
    pub max: Vec<u64>,
    pub ndeps: Vec<u64>,
    pub deps: Vec<u64>,
    pub hashes: Vec<H>,
    pub counts: Vec<u64>,
    pub heads: Vec<H>,
}

impl Paper {
    pub fn new(room: Room, actors: usize) -> Result<Paper, u8> {
        if actors > room.actors {
            return Err(12);
        }
        Ok(Paper { room, actors, nodes: vec![], cache: BTreeMap::new() })
    }

    pub fn find(&self, h: &H) -> Option<usize> {
        self.nodes.iter().position(|n| n.hash == *h)
    }

    pub fn edges(&self) -> usize {
        self.nodes.iter().map(|n| n.deps.len()).sum()
    }

    pub fn of_actor(&self, a: u64) -> impl Iterator<Item = &Node> {
        self.nodes.iter().filter(move |n| n.actor as u64 == a)
    }

    /// The number that add answers, with the unknown dependency for 4.
    pub fn judge(&self, hash: &H, actor: u64, seq: u64, max: u64, count: u64, deps: &[H]) -> (u8, Option<H>) {
        if self.find(hash).is_some() {
            return (3, None);
        }
        if let Some(d) = deps.iter().find(|d| self.find(d).is_none()) {
            return (4, Some(*d));
        }
        let n = if actor >= self.actors as u64 {
            5
        } else if seq != self.of_actor(actor).count() as u64 + 1 {
            6
        } else if max > MAX || count > max {
            7
        } else if deps.len() > 32 {
            8
        } else if self.nodes.len() >= self.room.nodes {
            9
        } else if self.edges() + deps.len() > self.room.edges {
            10
        } else {
            0
        };
        (n, None)
    }

    pub fn add(&mut self, hash: &H, actor: u64, seq: u64, max: u64, count: u64, deps: &[H]) -> (u8, Option<H>) {
        let j = self.judge(hash, actor, seq, max, count, deps);
        if j.0 == 0 {
            let deps = deps.iter().map(|d| self.find(d).unwrap()).collect();
            self.nodes.push(Node { hash: *hash, actor: actor as usize, seq, max, count, deps });
            let n = self.nodes.len() - 1;
            if n % 16 == 15 {
                self.cache_node(n);
            }
        }
        j
    }

    /// From the highest node down; once more than 32 were visited the walk ends at a node that has no cached clock, and
    /// what is still to be visited gets its own cached clock first.
    fn cache_node(&mut self, n: usize) {
        let mut left = BTreeSet::from([n]);
        let mut visited = HashSet::new();
        while let Some(k) = left.pop_last() {
            visited.insert(k);
            if !self.cache.contains_key(&k) {
                left.extend(self.nodes[k].deps.iter().copied());
                if visited.len() > 32 {
                    break;
                }
            }
        }
        for k in left {
            self.cache_node(k);
        }
        let clock = self.clock_of(&self.history_of([n]));
        self.cache.insert(n, clock);
    }

    pub fn heads(&self) -> Vec<H> {
        let named: HashSet<usize> = self.nodes.iter().flat_map(|n| n.deps.iter().copied()).collect();
        let mut v: Vec<H> =
            (0..self.nodes.len()).filter(|i| !named.contains(i)).map(|i| self.nodes[i].hash).collect();
        v.sort();
        v
    }

    fn history_of(&self, start: impl IntoIterator<Item = usize>) -> BTreeSet<usize> {
        let mut seen = BTreeSet::new();
        let mut todo: Vec<usize> = start.into_iter().collect();
        while let Some(n) = todo.pop() {
            if seen.insert(n) {
                todo.extend(self.nodes[n].deps.iter().copied());
            }
        }
        seen
    }

    pub fn history(&self, list: &[H]) -> BTreeSet<usize> {
        self.history_of(list.iter().filter_map(|h| self.find(h)))
    }

    fn clock_of(&self, hist: &BTreeSet<usize>) -> Vec<u64> {
        let mut c = vec![0; self.actors];
        for n in hist {
            let n = &self.nodes[*n];
            c[n.actor] = c[n.actor].max(n.seq);
        }
        c
    }

    pub fn seq_clock(&self, list: &[H]) -> Vec<u64> {
        self.clock_of(&self.history(list))
    }

    pub fn op_clock(&self, list: &[H]) -> Vec<u64> {
        let c = self.seq_clock(list);
        (0..self.actors)
            .map(|a| self.of_actor(a as u64).find(|n| n.seq == c[a]).map_or(0, |n| n.max))
            .collect()
    }

    pub fn missing(&self, have: &[H]) -> Vec<H> {
        let c = self.seq_clock(have);
        self.nodes.iter().filter(|n| n.seq > c[n.actor]).map(|n| n.hash).collect()
    }

    pub fn owner(&self, actor: u64, counter: u64) -> Option<H> {
        self.of_actor(actor).find(|n| n.max - n.count < counter && counter <= n.max).map(|n| n.hash)
    }

    /// Every op range of the actor begins above the max op before it (changes of count 0 among them).
    pub fn ranges_ascend(&self, actor: u64) -> bool {
        let v: Vec<&Node> = self.of_actor(actor).collect();
        v.windows(2).all(|w| w[1].max - w[1].count >= w[0].max)
    }

    pub fn chained(&self) -> bool {
        self.nodes.iter().all(|n| {
            n.seq < 2 || n.deps.iter().any(|d| self.nodes[*d].actor == n.actor && self.nodes[*d].seq == n.seq - 1)
        })
    }

    pub fn remove_ancestors(&self, list: &[H], heads: &[H]) -> Vec<H> {
        let hist: HashSet<H> = self.history(heads).into_iter().map(|n| self.nodes[n].hash).collect();
        let set: BTreeSet<H> = list.iter().filter(|h| !hist.contains(h)).copied().collect();
        set.into_iter().collect()
    }

    pub fn insert_actor(&mut self, p: u64) -> u8 {
        if p > self.actors as u64 || self.actors >= self.room.actors {
            return 12;
        }
        let p = p as usize;
        self.actors += 1;
        self.nodes.iter_mut().filter(|n| n.actor >= p).for_each(|n| n.actor += 1);
        self.cache.values_mut().for_each(|c| c.insert(p, 0));
        0
    }

    pub fn remove_actor(&mut self, p: u64) -> u8 {
        if p >= self.actors as u64 {
            return 5;
        }
        if self.of_actor(p).next().is_some() {
            return 11;
        }
        let p = p as usize;
        self.actors -= 1;
        self.nodes.iter_mut().filter(|n| n.actor > p).for_each(|n| n.actor -= 1);
        self.cache.values_mut().for_each(|c| {
            c.remove(p);
        });
        0
    }

    /// Load over decoded columns: 12, 18, 9, 10, else the new graph.
    pub fn load(room: Room, actors: usize, c: &Cols) -> Result<Paper, u8> {
        let mut g = Paper::new(room, actors)?;
        let n = c.actors.len();
        if [c.seq.len(), c.max.len(), c.ndeps.len(), c.hashes.len(), c.counts.len()].iter().any(|l| *l != n) {
            return Err(18);
        }
        let mut vals = c.deps.iter();
        for i in 0..n {
            if c.actors[i] >= actors as u64
                || c.seq[i] != g.of_actor(c.actors[i]).count() as u64 + 1
                || g.find(&c.hashes[i]).is_some()
                || c.max[i] > MAX
                || c.counts[i] > c.max[i]
                || c.ndeps[i] > 32
            {
                return Err(18);
            }
            let mut deps = vec![];
            for _ in 0..c.ndeps[i] {
                match vals.next() {
                    Some(d) if *d < i as u64 && g.nodes[*d as usize].max <= c.max[i] => deps.push(*d as usize),
                    _ => return Err(18),
                }
            }
            g.nodes.push(Node {
                hash: c.hashes[i],
                actor: c.actors[i] as usize,
                seq: c.seq[i],
                max: c.max[i],
                count: c.counts[i],
                deps,
            });
        }
        let stated: BTreeSet<H> = c.heads.iter().copied().collect();
        if stated != g.heads().into_iter().collect() {
            return Err(18);
        }
        if n > room.nodes {
            return Err(9);
        }
        if g.edges() > room.edges {
            return Err(10);
        }
        for k in (15..n).step_by(16) {
            g.cache_node(k);
        }
        Ok(g)
    }
}

#[derive(Clone, Debug)]
pub struct Rec {
    pub hash: H,
    pub key: u64,
    pub seq: u64,
    pub deps: Vec<H>,
}

/// Batch push: 3, 16, 8, 17.
pub fn batch_push(batch: &mut Vec<Rec>, room: usize, r: Rec) -> u8 {
    if batch.iter().any(|x| x.hash == r.hash) {
        3
    } else if batch.iter().any(|x| (x.key, x.seq) == (r.key, r.seq)) {
        16
    } else if r.deps.len() > 32 {
        8
    } else if batch.len() >= room {
        17
    } else {
        batch.push(r);
        0
    }
}

/// Handing a batch over: 16, 17, else all appended and the batch emptied.
pub fn batch_give(queue: &mut Vec<Rec>, batch: &mut Vec<Rec>, room: usize) -> u8 {
    let clash = |a: &Rec| queue.iter().any(|b| a.hash == b.hash || (a.key, a.seq) == (b.key, b.seq));
    if batch.iter().any(clash) {
        16
    } else if queue.len() + batch.len() > room {
        17
    } else {
        queue.append(batch);
        0
    }
}

/// The ready order, straight from its words, and the rest of the queue.
pub fn ready(queue: &mut Vec<Rec>, known: impl Fn(&H) -> bool) -> Vec<Rec> {
    let unknown: Vec<HashSet<H>> =
        queue.iter().map(|r| r.deps.iter().filter(|d| !known(d)).copied().collect()).collect();
    // first those with nothing unknown, in queue order
    let mut order: Vec<usize> = (0..queue.len()).filter(|i| unknown[*i].is_empty()).collect();
    // then, for each change listed, those whose last unknown dependency it was, in queue order
    let mut at = 0;
    while at < order.len() {
        let listed: HashSet<H> = order[..=at].iter().map(|i| queue[*i].hash).collect();
        let it = queue[order[at]].hash;
        for i in 0..queue.len() {
            if !order.contains(&i) && unknown[i].contains(&it) && unknown[i].is_subset(&listed) {
                order.push(i);
            }
        }
        at += 1;
    }
    let out = order.iter().map(|i| queue[*i].clone()).collect();
    let mut i = 0;
    queue.retain(|_| {
        i += 1;
        !order.contains(&(i - 1))
    });
    out
}

/// Drops the actor's changes at or after the sequence and all waiting ones that depend on them.
pub fn drop_branch(queue: &mut Vec<Rec>, key: u64, seq: u64) {
    let mut gone: HashSet<H> = queue.iter().filter(|r| r.key == key && r.seq >= seq).map(|r| r.hash).collect();
    loop {
        let more: Vec<H> = queue
            .iter()
            .filter(|r| !gone.contains(&r.hash) && r.deps.iter().any(|d| gone.contains(d)))
            .map(|r| r.hash)
            .collect();
        if more.is_empty() {
            break;
        }
        gone.extend(more);
    }
    queue.retain(|r| !gone.contains(&r.hash));
}
