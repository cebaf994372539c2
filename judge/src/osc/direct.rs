//! The overlay's calls and reads that are visible only inside `osc`, under public names.

use std::collections::HashSet;

use super::CompactDiffOverlay;
use super::compact::{
    ArenaMeta, CompactNodeRef, CompactRelationRef, CompactTagIter, CompactWayRef, META_LEN, NODE_META_OFF,
    RELATION_META_OFF, WAY_META_OFF,
};
use super::interner::StringInterner;
use super::sorted::{KindTable, SortedDiff};
use crate::ElementKind;
use crate::osm_id::osm_id_key;
use crate::read::elements::MemberType;
use crate::refusal::Refusal;

/// Metadata as it stands in a record.
#[derive(Clone, Copy, Debug, Default, PartialEq, Eq)]
pub struct Meta {
    pub flags: u8,
    pub version: i32,
    pub timestamp: i64,
    pub changeset: i64,
    pub uid: i32,
    pub user: u32,
}

impl Meta {
    fn arena(&self) -> ArenaMeta {
        ArenaMeta {
            flags: self.flags,
            version: self.version,
            timestamp: self.timestamp,
            changeset: self.changeset,
            uid: self.uid,
            user_id: self.user,
        }
    }
}

/// The published overlay.
#[derive(Clone)]
pub struct Overlay {
    pub(crate) inner: CompactDiffOverlay,
}

/// The calls that the published files keep to the `osc` module.
impl Overlay {
    pub fn intern(&mut self, text: &str) -> u32 {
        self.inner.intern(text).expect("fewer than 2^32 string bytes")
    }

    pub fn push_node(
        &mut self,
        id: i64,
        (lat, lon): (i32, i32),
        tags: &[(u32, &str)],
        meta: &Meta,
    ) -> Result<(), Refusal> {
        let pushed = self.inner.push_node(id, lat, lon, tags, &meta.arena());
        pushed.map_err(|e| Refusal::of(&e))
    }

    pub fn push_way(&mut self, id: i64, refs: &[i64], tags: &[(u32, &str)], meta: &Meta) -> Result<(), Refusal> {
        let pushed = self.inner.push_way(id, refs, tags, &meta.arena());
        pushed.map_err(|e| Refusal::of(&e))
    }

    /// A member is ref, type, role handle.
    pub fn push_relation(
        &mut self,
        id: i64,
        members: &[(i64, u8, u32)],
        tags: &[(u32, &str)],
        meta: &Meta,
    ) -> Result<(), Refusal> {
        let pushed = self.inner.push_relation(id, members, tags, &meta.arena());
        pushed.map_err(|e| Refusal::of(&e))
    }

    pub fn delete(&mut self, kind: ElementKind, id: i64, meta: &Meta) -> Result<(), Refusal> {
        let meta = &meta.arena();
        let deleted = match kind {
            ElementKind::Node => self.inner.delete_node(id, meta),
            ElementKind::Way => self.inner.delete_way(id, meta),
            ElementKind::Relation => self.inner.delete_relation(id, meta),
        };
        deleted.map_err(|e| Refusal::of(&e))
    }

    pub fn record(&self, kind: ElementKind, id: i64) -> Option<Record> {
        match kind {
            ElementKind::Node => self.inner.get_node(id).map(|r| node(&r)),
            ElementKind::Way => self.inner.get_way(id).map(|r| way(&r)),
            ElementKind::Relation => self.inner.get_relation(id).map(|r| relation(&r)),
        }
    }

    fn sorted(&self) -> SortedDiff {
        self.inner.clone().into_sorted()
    }

    /// The ids in OSM order, as sorted.rs gives them: live, deleted.
    pub fn sorted_ids(&self, kind: ElementKind) -> (Vec<i64>, Vec<i64>) {
        let diff = self.sorted();
        (diff.upserts(kind).to_vec(), diff.deleted(kind).to_vec())
    }

    /// The records of the live ids, in their order.
    pub fn sorted_records(&self, kind: ElementKind) -> Vec<Record> {
        let diff = self.sorted();
        let count = diff.upserts(kind).len();
        (0..count).map(|n| nth(&diff, kind, n)).collect()
    }

    /// The record by its number in the live list; the published read panics past the list.
    pub fn sorted_record(&self, kind: ElementKind, n: usize) -> Record {
        nth(&self.sorted(), kind, n)
    }
}

fn nth(diff: &SortedDiff, kind: ElementKind, n: usize) -> Record {
    match kind {
        ElementKind::Node => node(&diff.node(n)),
        ElementKind::Way => way(&diff.way(n)),
        ElementKind::Relation => relation(&diff.relation(n)),
    }
}

/// A live record read through the published accessors.
#[derive(Clone, Debug, PartialEq, Eq)]
pub struct Record {
    pub id: i64,
    pub flags: u8,
    pub version: i32,
    pub timestamp: i64,
    pub changeset: i64,
    pub uid: i32,
    pub user: String,
    /// What `metadata()` says of visibility; true where there is no metadata.
    pub visible: bool,
    pub place: Option<(i32, i32)>,
    pub refs: Vec<i64>,
    /// Type, ref, role.
    pub members: Vec<(u8, i64, String)>,
    pub tags: Vec<(String, String)>,
    /// The published view's bytes: from the record's start to the arena's end.
    pub view: Vec<u8>,
    /// Where the record ends in the view.
    pub len: usize,
}

fn tagged(out: &mut Record, mut tags: CompactTagIter<'_>) {
    let owned = |(k, v): (&str, &str)| (k.to_owned(), v.to_owned());
    out.tags = tags.by_ref().map(owned).collect();
    out.len = tags.judge_at();
}

fn node(r: &CompactNodeRef<'_>) -> Record {
    let mut out = common(r.id(), r.data, NODE_META_OFF, r.metadata());
    out.place = Some((r.decimicro_lat(), r.decimicro_lon()));
    tagged(&mut out, r.tags());
    assert_eq!(out.tags.len(), r.tag_count());
    out
}

fn way(r: &CompactWayRef<'_>) -> Record {
    let mut out = common(r.id(), r.data, WAY_META_OFF, r.metadata());
    out.refs = r.refs().collect();
    tagged(&mut out, r.tags());
    assert_eq!((out.refs.len(), out.tags.len()), (r.ref_count(), r.tag_count()));
    out
}

fn relation(r: &CompactRelationRef<'_>) -> Record {
    let mut out = common(r.id(), r.data, RELATION_META_OFF, r.metadata());
    out.members = r
        .members()
        .map(|(kind, id, role)| {
            let byte = match kind {
                MemberType::Node => 0,
                MemberType::Way => 1,
                MemberType::Relation => 2,
                MemberType::Unknown(_) => unreachable!("no arena holds one"),
            };
            (byte, id, role.to_owned())
        })
        .collect();
    tagged(&mut out, r.tags());
    assert_eq!((out.members.len(), out.tags.len()), (r.member_count(), r.tag_count()));
    out
}

fn common(id: i64, data: &[u8], meta_off: usize, meta: Option<crate::write::block_builder::Metadata<'_>>) -> Record {
    assert!(data.len() >= meta_off + META_LEN);
    let flags = data[meta_off];
    assert_eq!(meta.is_some(), flags & 1 == 1);
    Record {
        id,
        flags,
        version: meta.map_or(0, |m| m.version),
        timestamp: meta.map_or(0, |m| m.timestamp),
        changeset: meta.map_or(0, |m| m.changeset),
        uid: meta.map_or(0, |m| m.uid),
        user: meta.map_or_else(String::new, |m| m.user.to_owned()),
        visible: meta.is_none_or(|m| m.visible),
        place: None,
        refs: Vec::new(),
        members: Vec::new(),
        tags: Vec::new(),
        view: data.to_vec(),
        len: 0,
    }
}

/// The lookups of sorted.rs over lent lists, which are strictly in OSM order.
pub struct Lookups {
    diff: SortedDiff,
}

impl Lookups {
    pub fn over(live: &[i64], deleted: &[i64]) -> Self {
        let table = |ids: &[i64], gone: &[i64]| {
            KindTable::build(
                Vec::new(),
                ids.iter().map(|&id| (id, 0)).collect(),
                gone.iter().copied().collect::<HashSet<i64>>(),
            )
        };
        let diff = SortedDiff::new(
            table(live, deleted),
            table(&[], &[]),
            table(&[], &[]),
            StringInterner::new().into_strings(),
        );
        // The published build sorts; a list in OSM order comes back as it was lent.
        assert_eq!(diff.upserts(ElementKind::Node), live);
        assert_eq!(diff.deleted(ElementKind::Node), deleted);
        Self { diff }
    }

    pub fn range_overlaps(&self, min_id: i64, max_id: i64) -> bool {
        self.diff.range_overlaps(ElementKind::Node, min_id, max_id)
    }

    /// The first place and one past the last.
    pub fn upsert_range(&self, first: i64, last: i64) -> (usize, usize) {
        let range = self.diff.upsert_range(ElementKind::Node, first, osm_id_key(last));
        (range.start, range.end)
    }
}
