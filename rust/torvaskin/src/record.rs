//! Elements: what is pushed, and what is read.

use alloc::vec::Vec;

use crate::blocks::TextPart;
use crate::entry::{self, ArenaMeta, HeadReply, MemberReply, MetaReply, RefReply, TagReply};

/// A node, a way or a relation.
#[derive(Clone, Copy, Debug, PartialEq, Eq, Hash)]
#[repr(u8)]
pub enum ElementKind {
    /// A node.
    Node = 0,
    /// A way.
    Way = 1,
    /// A relation.
    Relation = 2,
}

impl ElementKind {
    /// All three, in the listing's order.
    pub const ALL: [Self; 3] = [Self::Node, Self::Way, Self::Relation];
}

/// What stands for a text in the overlay that took it in: 0 for the empty text, n for the n-th new one.
#[derive(Clone, Copy, Debug, Default, PartialEq, Eq, Hash)]
pub struct Handle(pub u32);

/// Metadata of an element. A number that was not given is 0.
///
/// ```
/// use torvaskin::{ElementKind, Metadata, Overlay, Record, Sizes};
///
/// let mut overlay = Overlay::new(&Sizes::ROADLIST)?;
/// let metadata = Metadata { version: Some(4), uid: 12, user: Some("ada"), ..Metadata::default() };
/// overlay.push(&Record::way(5, []).metadata(metadata))?;
/// let read = overlay.get(ElementKind::Way, 5)?.expect("it was pushed");
/// assert_eq!(read.metadata, Some(metadata));
/// # Ok::<(), torvaskin::Refusal>(())
/// ```
#[derive(Clone, Copy, Debug, Default, PartialEq, Eq)]
pub struct Metadata<N> {
    /// The version that it claims.
    pub version: Option<i32>,
    /// Seconds since 1970.
    pub timestamp: i64,
    /// The changeset.
    pub changeset: i64,
    /// The user's number.
    pub uid: i32,
    /// The user's name.
    pub user: Option<N>,
    /// Whether it said `visible=false`.
    pub hidden: bool,
}

/// A member of a relation.
#[derive(Clone, Copy, Debug, PartialEq, Eq)]
pub struct Member<N> {
    /// What it is.
    pub kind: ElementKind,
    /// Its id.
    pub id: i64,
    /// Its role.
    pub role: N,
}

/// What nodes, ways and relations have each for themselves.
#[derive(Clone, Debug, PartialEq, Eq)]
pub enum Body<N> {
    /// A node's coordinates, in 1e-7 degree.
    Node {
        /// At most 900,000,000 either side of 0.
        lat: i32,
        /// At most 1,800,000,000 either side of 0.
        lon: i32,
    },
    /// A way's nodes.
    Way {
        /// Their ids, in order.
        refs: Vec<i64>,
    },
    /// A relation's members.
    Relation {
        /// In order.
        members: Vec<Member<N>>,
    },
}

/// An element as it is pushed and as it is read. Its names (keys, roles, the user) are texts, or of a push handles.
///
/// ```
/// use torvaskin::{Body, ElementKind, Overlay, Record, Sizes};
///
/// let mut overlay = Overlay::new(&Sizes::ROADLIST)?;
/// let bridge = Record::way(5, [1, 2]).version(4).tag("bridge", "yes").tag("maxweight", "7.5");
/// overlay.push(&bridge)?;
/// overlay.push(&Record::relation(9, [(ElementKind::Way, 5, "via")]))?;
/// assert_eq!(overlay.get(ElementKind::Way, 5)?, Some(bridge));
///
/// // names that are pushed often can be taken in once
/// let key = overlay.intern("highway")?;
/// let road = Record { id: 6, body: Body::Way { refs: vec![2, 3] }, metadata: None, tags: vec![(key, "service")] };
/// overlay.push(&road)?;
/// let read = overlay.get(ElementKind::Way, 6)?.expect("it was pushed");
/// assert_eq!((read.refs(), &read.tags[..]), (&[2, 3][..], &[("highway", "service")][..]));
/// # Ok::<(), torvaskin::Refusal>(())
/// ```
#[derive(Clone, Debug, PartialEq, Eq)]
pub struct Record<'a, N = &'a str> {
    /// Its id.
    pub id: i64,
    /// Coordinates, refs or members.
    pub body: Body<N>,
    /// None where it has none of the six attributes.
    pub metadata: Option<Metadata<N>>,
    /// Keys and values, in order.
    pub tags: Vec<(N, &'a str)>,
}

impl<'a> Record<'a> {
    fn new(id: i64, body: Body<&'a str>) -> Self {
        Self { id, body, metadata: None, tags: Vec::new() }
    }

    /// A node at these coordinates, in 1e-7 degree.
    pub fn node(id: i64, lat: i32, lon: i32) -> Self {
        Self::new(id, Body::Node { lat, lon })
    }

    /// A way along these nodes.
    pub fn way(id: i64, refs: impl IntoIterator<Item = i64>) -> Self {
        Self::new(id, Body::Way { refs: refs.into_iter().collect() })
    }

    /// A relation of these members: kind, id and role of each.
    pub fn relation(id: i64, members: impl IntoIterator<Item = (ElementKind, i64, &'a str)>) -> Self {
        let members = members.into_iter().map(|(kind, id, role)| Member { kind, id, role });
        Self::new(id, Body::Relation { members: members.collect() })
    }

    /// One tag more.
    pub fn tag(mut self, key: &'a str, value: &'a str) -> Self {
        self.tags.push((key, value));
        self
    }

    /// The version that it claims.
    pub fn version(mut self, version: i32) -> Self {
        self.metadata.get_or_insert_default().version = Some(version);
        self
    }

    /// All of its metadata.
    pub fn metadata(self, metadata: Metadata<&'a str>) -> Self {
        Self { metadata: Some(metadata), ..self }
    }

    /// The record at the start of these bytes; nothing where they are no whole record.
    pub(crate) fn read(kind: ElementKind, data: &'a [u8], texts: TextPart<'a>) -> Option<Self> {
        let HeadReply { number: 0, head, parts_at, tags_at } = entry::record_head(kind as u8, data) else {
            return None;
        };
        let MetaReply { number: 0, meta } = entry::record_meta(kind as u8, data) else {
            return None;
        };
        let body = match kind {
            ElementKind::Node => Body::Node { lat: head.lat.cast_signed(), lon: head.lon.cast_signed() },
            ElementKind::Way => Body::Way { refs: walk(parts_at, head.count, |at, left| next_ref(data, at, left))? },
            ElementKind::Relation => {
                Body::Relation { members: walk(parts_at, head.count, |at, left| next_member(data, texts, at, left))? }
            }
        };
        let tags = walk(tags_at, head.tags, |at, left| next_tag(data, texts, at, left))?;
        Some(Self { id: head.id.cast_signed(), body, metadata: read_metadata(meta, texts)?, tags })
    }
}

impl<N> Record<'_, N> {
    /// What it is.
    pub fn kind(&self) -> ElementKind {
        match self.body {
            Body::Node { .. } => ElementKind::Node,
            Body::Way { .. } => ElementKind::Way,
            Body::Relation { .. } => ElementKind::Relation,
        }
    }

    /// A way's nodes; of others none.
    pub fn refs(&self) -> &[i64] {
        if let Body::Way { refs } = &self.body { refs } else { &[] }
    }

    /// A relation's members; of others none.
    pub fn members(&self) -> &[Member<N>] {
        if let Body::Relation { members } = &self.body { members } else { &[] }
    }
}

/// What a step gives: nothing where it is refused; else a part and the offset of the next one, or none where none remains.
type Step<T> = Option<Option<(T, usize)>>;

/// The parts from an offset on, step after step.
fn walk<T>(mut offset: usize, mut remaining: u32, step: impl Fn(usize, u32) -> Step<T>) -> Option<Vec<T>> {
    let mut parts = Vec::new();
    while let Some((part, next)) = step(offset, remaining)? {
        parts.push(part);
        (offset, remaining) = (next, remaining - 1);
    }
    Some(parts)
}

fn next_ref(data: &[u8], offset: usize, remaining: u32) -> Step<i64> {
    let RefReply { number: 0, found, value, next } = entry::record_ref(data, offset, remaining) else {
        return None;
    };
    Some((found != 0).then_some((value.cast_signed(), next)))
}

fn next_member<'a>(data: &[u8], texts: TextPart<'a>, offset: usize, remaining: u32) -> Step<Member<&'a str>> {
    let MemberReply { number: 0, found, reference, kind, role, next } = entry::record_member(data, offset, remaining)
    else {
        return None;
    };
    if found == 0 {
        return Some(None);
    }
    let kind = *ElementKind::ALL.get(usize::from(kind))?;
    Some(Some((Member { kind, id: reference.cast_signed(), role: text(texts, role)? }, next)))
}

fn next_tag<'a>(data: &'a [u8], texts: TextPart<'a>, offset: usize, remaining: u32) -> Step<(&'a str, &'a str)> {
    let TagReply { number: 0, found, key, start, len } = entry::record_tag(data, offset, remaining) else {
        return None;
    };
    if found == 0 {
        return Some(None);
    }
    let value = core::str::from_utf8(cut(data, start, len)?).ok()?;
    Some(Some(((text(texts, key)?, value), start + len)))
}

fn read_metadata<'a>(meta: ArenaMeta, texts: TextPart<'a>) -> Option<Option<Metadata<&'a str>>> {
    let ArenaMeta { flags, version, timestamp, changeset, uid, user } = meta;
    let user = text(texts, user)?;
    let metadata = Metadata {
        version: (flags & HAS_VERSION != 0).then_some(version.cast_signed()),
        timestamp: timestamp.cast_signed(),
        changeset: changeset.cast_signed(),
        uid: uid.cast_signed(),
        user: (flags & HAS_USER != 0).then_some(user),
        hidden: flags & HIDDEN != 0,
    };
    Some((flags & PRESENT != 0).then_some(metadata))
}

pub(crate) const PRESENT: u8 = 1;
pub(crate) const HIDDEN: u8 = 2;
pub(crate) const HAS_USER: u8 = 4;
pub(crate) const HAS_VERSION: u8 = 8;

/// The text of a handle.
fn text(texts: TextPart<'_>, handle: u32) -> Option<&str> {
    let [start, len] = *texts.spans.get(handle as usize)?;
    core::str::from_utf8(cut(texts.bytes, start.try_into().ok()?, len.try_into().ok()?)?).ok()
}

/// So many bytes from a place on.
pub(crate) fn cut(bytes: &[u8], start: usize, len: usize) -> Option<&[u8]> {
    bytes.get(start..)?.get(..len)
}
