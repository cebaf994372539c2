// Beside the published file: reading the private fields, and taking a copy.
impl CompactDiffOverlay {
    fn judge_store(&self, kind: ElementKind) -> KindStore<'_> {
        match kind {
            ElementKind::Node => self.node_store(),
            ElementKind::Way => self.way_store(),
            ElementKind::Relation => self.relation_store(),
        }
    }

    /// The known version that the published check compares with.
    pub(crate) fn judge_known(&self, kind: ElementKind, id: i64) -> Option<i32> {
        self.judge_store(kind).stored_version(id)
    }

    pub(crate) fn judge_arena(&self, kind: ElementKind) -> &[u8] {
        self.judge_store(kind).arena
    }

    pub(crate) fn judge_index(&self, kind: ElementKind) -> &FxHashMap<i64, usize> {
        self.judge_store(kind).index
    }

    pub(crate) fn judge_floors(&self, kind: ElementKind) -> &FxHashMap<i64, i32> {
        self.judge_store(kind).floors
    }

    pub(crate) fn judge_texts(&self) -> Vec<String> {
        self.interner.judge_texts()
    }

    pub(crate) fn judge_spans(&self) -> (&[(u32, u32)], &[u8]) {
        self.interner.judge_spans()
    }

    pub(crate) fn judge_allows(&self) -> bool {
        self.allow_version_regression
    }

    pub(super) fn judge_lookup(&self) -> (Vec<Option<u32>>, usize) {
        self.interner.judge_lookup()
    }

    /// The same overlay with other fields of one kind.
    pub(super) fn judge_with(mut self, kind: ElementKind, fields: JudgeFields) -> Self {
        let (arena, index, deleted, floors) = fields;
        match kind {
            ElementKind::Node => {
                (self.node_arena, self.node_index) = (arena, index);
                (self.deleted_nodes, self.node_version_floors) = (deleted, floors);
            }
            ElementKind::Way => {
                (self.way_arena, self.way_index) = (arena, index);
                (self.deleted_ways, self.way_version_floors) = (deleted, floors);
            }
            ElementKind::Relation => {
                (self.relation_arena, self.relation_index) = (arena, index);
                (self.deleted_relations, self.relation_version_floors) = (deleted, floors);
            }
        }
        self
    }

    pub(super) fn judge_check(&self, kind: ElementKind, id: i64, incoming: i32) -> ParseResult<()> {
        self.check_version_advance(kind, id, self.judge_store(kind), incoming)
    }

    pub(super) const JUDGE_RAISE: fn(&mut FxHashMap<i64, i32>, i64, Option<i32>, &ArenaMeta) = Self::raise_floor;
}

/// Arena, index, deleted ids and floors of a kind.
pub(super) type JudgeFields = (Vec<u8>, FxHashMap<i64, usize>, HashSet<i64>, FxHashMap<i64, i32>);

impl Clone for CompactDiffOverlay {
    fn clone(&self) -> Self {
        Self {
            node_arena: self.node_arena.clone(),
            way_arena: self.way_arena.clone(),
            relation_arena: self.relation_arena.clone(),
            node_index: self.node_index.clone(),
            way_index: self.way_index.clone(),
            relation_index: self.relation_index.clone(),
            deleted_nodes: self.deleted_nodes.clone(),
            deleted_ways: self.deleted_ways.clone(),
            deleted_relations: self.deleted_relations.clone(),
            node_version_floors: self.node_version_floors.clone(),
            way_version_floors: self.way_version_floors.clone(),
            relation_version_floors: self.relation_version_floors.clone(),
            interner: self.interner.clone(),
            allow_version_regression: self.allow_version_regression,
        }
    }
}
