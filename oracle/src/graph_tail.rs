// Included into the module `change_graph` after the published text: what the supplied file lacks there (the column
// numbers, fragments, ChangeIter), and the oracle's own looks at private fields.

pub(crate) mod ids {
    use crate::storage::ColumnSpec;
    pub(crate) const ACTOR_COL_SPEC: ColumnSpec = ColumnSpec(1);
    pub(crate) const SEQ_COL_SPEC: ColumnSpec = ColumnSpec(3);
    pub(crate) const MAX_OP_COL_SPEC: ColumnSpec = ColumnSpec(19);
    pub(crate) const TIME_COL_SPEC: ColumnSpec = ColumnSpec(35);
    pub(crate) const MESSAGE_COL_SPEC: ColumnSpec = ColumnSpec(53);
    pub(crate) const DEPS_COUNT_COL_SPEC: ColumnSpec = ColumnSpec(64);
    pub(crate) const DEPS_VAL_COL_SPEC: ColumnSpec = ColumnSpec(67);
    pub(crate) const EXTRA_META_COL_SPEC: ColumnSpec = ColumnSpec(86);
    pub(crate) const EXTRA_VAL_COL_SPEC: ColumnSpec = ColumnSpec(87);
}

#[derive(Debug, Clone)]
pub struct Fragment {
    pub head: ChangeHash,
    pub level: usize,
    pub boundary: Vec<ChangeHash>,
    pub checkpoints: Vec<ChangeHash>,
    pub members: Vec<ChangeHash>,
}

#[derive(Debug, Clone)]
struct FragmentNode {
    head: NodeIdx,
    deps: Vec<NodeIdx>,
    clock: SeqClock,
}

impl FragmentNode {
    /// Out of scope: only what is at hand.
    fn export(&self, graph: &ChangeGraph) -> Fragment {
        let head = graph.hashes[self.head.0 as usize];
        let boundary = self.deps.iter().map(|d| graph.hashes[d.0 as usize]).collect();
        Fragment { head, level: head.fragment_level(), boundary, checkpoints: vec![], members: vec![head] }
    }
}

pub(crate) struct ChangeIter<'a> {
    index: usize,
    actors: std::slice::Iter<'a, ActorIdx>,
    seq: std::slice::Iter<'a, u32>,
    max_ops: std::slice::Iter<'a, u32>,
    num_ops: std::slice::Iter<'a, u64>,
    timestamps: std::slice::Iter<'a, i64>,
    messages: std::slice::Iter<'a, Option<String>>,
    extra_bytes_meta: std::slice::Iter<'a, ValueMeta>,
    graph: &'a ChangeGraph,
}

/// What `tables` shows of one node: actor, sequence, max op, op count, first edge + 1.
pub(crate) struct NodeView {
    pub(crate) actor: u32,
    pub(crate) seq: u32,
    pub(crate) max_op: u32,
    pub(crate) num_ops: u64,
    pub(crate) first: u32,
}

impl MissingDep {
    pub(crate) fn hash(&self) -> ChangeHash {
        self.0
    }
}

impl ChangeGraph {
    pub(crate) fn oracle_forget(&mut self) {
        self.clock_cache.clear()
    }

    pub(crate) fn oracle_cache(&self) -> Vec<(u32, SeqClock)> {
        let mut v: Vec<_> = self.clock_cache.iter().map(|(n, c)| (n.0, c.clone())).collect();
        v.sort_by_key(|(n, _)| *n);
        v
    }

    pub(crate) fn oracle_edges(&self) -> Vec<(u32, u32)> {
        self.edges
            .iter()
            .map(|e| (e.target.0, e.next.map_or(0, |n| n.0.get())))
            .collect()
    }

    pub(crate) fn oracle_nodes(&self) -> Vec<NodeView> {
        (0..self.actors.len())
            .map(|i| NodeView {
                actor: self.actors[i].0,
                seq: self.seq[i],
                max_op: self.max_ops[i],
                num_ops: self.num_ops.get(i).unwrap(),
                first: self.parents[i].map_or(0, |e| e.0.get()),
            })
            .collect()
    }
}
