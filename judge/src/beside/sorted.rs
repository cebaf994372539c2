// Beside the published file: reading and setting the private place.
impl Seek {
    pub(crate) fn judge_at(place: Option<usize>) -> Self {
        Self(place)
    }

    pub(crate) fn judge_place(&self) -> Option<usize> {
        self.0
    }
}

impl KindTable {
    /// A table of any lists.
    pub(super) fn judge_of(arena: Vec<u8>, ids: Vec<i64>, offsets: Vec<usize>) -> Self {
        Self { arena, ids, offsets, deleted: Vec::new() }
    }

    pub(super) fn judge_offsets(&self) -> &[usize] {
        &self.offsets
    }

    pub(super) fn judge_record(&self, i: usize) -> &[u8] {
        self.record(i)
    }
}
