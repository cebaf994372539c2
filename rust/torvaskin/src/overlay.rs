//! The overlay.

use alloc::string::String;
use alloc::vec;
use alloc::vec::Vec;

use crate::entry::{self, ArenaMeta, Number, Part, PushHead};
use crate::record::{HAS_USER, HAS_VERSION, HIDDEN, PRESENT, cut};
use crate::{Body, ElementKind, Handle, Metadata, Owned, Reason, Record, Refusal, Shared, Sizes, Storage};

/// What is known of nodes, ways and relations, in storage that is allocated ([`Overlay::new`]) or lent ([`Overlay::set_up`]).
///
/// Each call first tests that what is lent is sound, and is refused 22 where it is not; a refused call leaves the overlay as it was.
///
/// ```
/// use torvaskin::{ElementKind, Overlay, Record, Sizes};
///
/// let mut overlay = Overlay::new(&Sizes::ROADLIST)?;
/// overlay.push(&Record::node(7, 10, -20).version(3).tag("name", "A"))?;
/// overlay.delete(ElementKind::Way, -4, Some(2))?;
/// assert_eq!(overlay.known_version(ElementKind::Way, -4)?, Some(2));
/// let older = overlay.push(&Record::way(-4, [7]).version(1)).unwrap_err();
/// assert_eq!((older.number(), older.held()), (12, Some(2)));
/// assert_eq!(overlay.listing(1_000)?, "n\t7\t+\t3\t9\t3\t0\t0\t0\t\t10\t-20\t1\tname\tA\nw\t-4\t-\t2\n");
/// # Ok::<(), torvaskin::Refusal>(())
/// ```
#[derive(Clone, Debug)]
pub struct Overlay<S = Owned> {
    storage: S,
}

/// What names a key, a role or a user in a push: a text, which is taken in, or the [`Handle`] of one that was.
pub trait Name: Copy + Sealed {
    /// The handles of some names, with at most one test of what is lent.
    fn handles<S: Storage>(names: &[Self], overlay: &mut Overlay<S>) -> Result<Vec<Handle>, Refusal>;

    /// Of a text its length.
    #[doc(hidden)]
    fn text_len(self) -> Option<usize>;
}

/// Names are these two: a name that made calls of its own could not be given back.
pub trait Sealed {}

impl Sealed for Handle {}

impl Sealed for &str {}

impl Name for Handle {
    fn handles<S: Storage>(names: &[Self], _: &mut Overlay<S>) -> Result<Vec<Handle>, Refusal> {
        Ok(names.to_vec())
    }

    fn text_len(self) -> Option<usize> {
        None
    }
}

impl Name for &str {
    fn handles<S: Storage>(names: &[Self], overlay: &mut Overlay<S>) -> Result<Vec<Handle>, Refusal> {
        // of no texts nothing is asked: the push behind them tests what is lent
        if names.is_empty() { Ok(Vec::new()) } else { overlay.intern_texts(names) }
    }

    fn text_len(self) -> Option<usize> {
        Some(self.len())
    }
}

impl Overlay {
    /// An empty overlay in storage of these sizes. Refused 1 for a size outside.
    pub fn new(sizes: &Sizes) -> Result<Self, Refusal> {
        Self::set_up(sizes.allocate()?, sizes)
    }
}

impl<S: Storage> Overlay<S> {
    /// An empty overlay in this storage, whatever it holds. Refused 1 for a size outside, and for blocks that are longer or shorter than the
    /// sizes take ([`Sizes::words`], [`Sizes::bytes`]).
    pub fn set_up(storage: S, sizes: &Sizes) -> Result<Self, Refusal> {
        let mut overlay = Self { storage };
        let reply = entry::set_up(overlay.storage.lent(), sizes.given(), 0);
        Refusal::unless_taken(reply.number, reply.held, 0)?;
        Ok(overlay)
    }

    /// The overlay that this storage holds since an earlier one was given back. Where it holds none, or its blocks are longer or shorter than
    /// at set-up, calls are refused 22.
    ///
    /// ```
    /// use torvaskin::{ElementKind, Overlay, Sizes};
    ///
    /// let mut overlay = Overlay::new(&Sizes::ROADLIST)?;
    /// overlay.delete(ElementKind::Node, 1, None)?;
    /// let mut storage = overlay.into_storage();
    /// assert!(Overlay::kept(storage.clone()).is_deleted(ElementKind::Node, 1)?);
    /// storage.counters[0] = 700;
    /// assert_eq!(Overlay::kept(storage).is_sound().unwrap_err().number(), 22);
    /// # Ok::<(), torvaskin::Refusal>(())
    /// ```
    pub fn kept(storage: S) -> Self {
        Self { storage }
    }

    /// Gives the storage back.
    pub fn into_storage(self) -> S {
        self.storage
    }

    pub(crate) fn storage(&self) -> &S {
        &self.storage
    }

    pub(crate) fn storage_mut(&mut self) -> &mut S {
        &mut self.storage
    }

    /// Whether what is lent is sound. Refused 22 where it is not.
    pub fn is_sound(&self) -> Result<(), Refusal> {
        let reply = entry::is_sound(self.storage.shared());
        Refusal::unless_taken(reply.number, reply.held, 0)
    }

    /// How much of what is lent is in use. Records that were replaced or deleted keep their bytes.
    ///
    /// ```
    /// use torvaskin::{Overlay, Record, Sizes};
    ///
    /// let mut overlay = Overlay::new(&Sizes::ROADLIST)?;
    /// overlay.push(&Record::way(5, [1, 2]).tag("name", "A"))?;
    /// let used = Sizes { ids: [0, 1, 0], arenas: [0, 70, 0], strings: 2, string_bytes: 4 };
    /// assert_eq!(overlay.used()?, used);
    /// # Ok::<(), torvaskin::Refusal>(())
    /// ```
    pub fn used(&self) -> Result<Sizes, Refusal> {
        self.is_sound()?;
        let [nodes, ways, relations, na, wa, ra, strings, string_bytes, ..] =
            self.storage.shared().counters.map(|count| count as usize);
        Ok(Sizes { ids: [nodes, ways, relations], arenas: [na, wa, ra], strings, string_bytes })
    }

    /// How much was lent at set-up.
    ///
    /// ```
    /// use torvaskin::{Overlay, Sizes};
    ///
    /// assert_eq!(Overlay::new(&Sizes::ROADLIST)?.sizes()?, Sizes::ROADLIST);
    /// # Ok::<(), torvaskin::Refusal>(())
    /// ```
    pub fn sizes(&self) -> Result<Sizes, Refusal> {
        self.is_sound()?;
        Ok(self.storage.shared().sizes())
    }

    /// Sets whether a change may claim a version below the known one.
    ///
    /// ```
    /// use torvaskin::{Overlay, Record, Sizes};
    ///
    /// let mut overlay = Overlay::new(&Sizes::ROADLIST)?;
    /// overlay.push(&Record::way(5, []).version(4))?;
    /// assert!(overlay.push(&Record::way(5, []).version(3)).is_err());
    /// overlay.allow_version_regression(true)?;
    /// overlay.push(&Record::way(5, []).version(3))?;
    /// # Ok::<(), torvaskin::Refusal>(())
    /// ```
    pub fn allow_version_regression(&mut self, allow: bool) -> Result<(), Refusal> {
        let reply = entry::allow_version_regression(self.storage.lent(), allow.into());
        Refusal::unless_taken(reply.number, reply.held, 0)
    }

    /// Takes a text in, where it is not held yet. Refused 3 or 13.
    ///
    /// ```
    /// use torvaskin::{Handle, Overlay, Sizes};
    ///
    /// let mut overlay = Overlay::new(&Sizes::ROADLIST)?;
    /// assert_eq!(overlay.intern("")?, Handle(0));
    /// assert_eq!(overlay.intern("name")?, Handle(1));
    /// assert_eq!(overlay.text(Handle(1))?, "name");
    /// assert_eq!(overlay.text(Handle(2)).unwrap_err().number(), 21);
    /// # Ok::<(), torvaskin::Refusal>(())
    /// ```
    pub fn intern(&mut self, text: &str) -> Result<Handle, Refusal> {
        let text = entry::intern(self.storage.lent(), text.as_bytes());
        Refusal::unless_taken(text.number, 0, 0)?;
        handle(text.handle)
    }

    /// Takes texts in, one after another, with one test of what is lent: the handles that [`Overlay::intern`] would give. Refused 3 or 13 at
    /// the first text that it would refuse; those before it stay taken in.
    ///
    /// ```
    /// use torvaskin::{Handle, Overlay, Sizes};
    ///
    /// let mut overlay = Overlay::new(&Sizes::ROADLIST)?;
    /// assert_eq!(overlay.intern_texts(&["name", "", "maxweight", "name"])?, [Handle(1), Handle(0), Handle(2), Handle(1)]);
    /// assert_eq!(overlay.intern_texts(&["access", "\u{1}", "bridge"]).unwrap_err().number(), 3);
    /// assert_eq!(overlay.used()?.strings, 4);
    /// # Ok::<(), torvaskin::Refusal>(())
    /// ```
    pub fn intern_texts(&mut self, texts: &[&str]) -> Result<Vec<Handle>, Refusal> {
        let lengths: Vec<_> = texts.iter().map(|text| text.len()).collect();
        let mut handles = vec![0; texts.len()];
        let done = entry::intern_texts(self.storage.lent(), texts.concat().as_bytes(), &lengths, &mut handles);
        Refusal::unless_taken(done.number, 0, 0)?;
        handles.into_iter().map(handle).collect()
    }

    /// Creates or replaces an element. Its names are taken in first (refused 3 or 13), then it is pushed (refused 17, 3, 10, 16, 12, 14 or
    /// 15). Where it is refused, the names that were new are given back, and every lent byte is as it was.
    ///
    /// The names that are texts are taken in by one call, and each call tests the whole overlay first: a push with such names tests it
    /// twice, a push without once. Names that are pushed often are taken in once, by [`Overlay::intern_texts`], and pushed by their handles.
    ///
    /// A text that was read from an overlay cannot be pushed into the same one, which it would overlap:
    ///
    /// ```compile_fail,E0502
    /// # let mut overlay = torvaskin::Overlay::new(&torvaskin::Sizes::ROADLIST)?;
    /// let name = overlay.text(torvaskin::Handle(0))?;
    /// overlay.push(&torvaskin::Record::way(5, []).tag("name", name))?;
    /// # Ok::<(), torvaskin::Refusal>(())
    /// ```
    pub fn push<N: Name>(&mut self, record: &Record<'_, N>) -> Result<(), Refusal> {
        let names: Vec<_> = names(record).collect();
        let (texts, text_bytes) = (names.iter().filter_map(|name| name.text_len()))
            .fold((0, 0_usize), |(texts, bytes), len| (texts + 1, bytes.saturating_add(len)));
        // what new texts may write, and how much was in use
        let mut lent = self.storage.lent();
        let counters = *lent.counters;
        let (words, bytes) = lent.unused_texts(texts, text_bytes);
        let (words, bytes) = (words.to_vec(), bytes.to_vec());
        let pushed = N::handles(&names, self).and_then(|handles| self.push_parts(record, handles));
        if pushed.is_err() {
            let mut lent = self.storage.lent();
            *lent.counters = counters;
            let (unused_words, unused_bytes) = lent.unused_texts(texts, text_bytes);
            unused_words.iter_mut().zip(words).for_each(|(word, before)| *word = before);
            unused_bytes.iter_mut().zip(bytes).for_each(|(byte, before)| *byte = before);
        }
        pushed
    }

    /// A push by the handles of the record's names.
    fn push_parts<N: Name>(&mut self, record: &Record<'_, N>, handles: Vec<Handle>) -> Result<(), Refusal> {
        let mut handles = handles.into_iter();
        let mut parts = Vec::new();
        let mut head = PushHead { id: record.id.cast_unsigned(), ..PushHead::default() };
        let user = record.metadata.and_then(|metadata| metadata.user).and_then(|_| handles.next());
        let meta = arena_meta(record.metadata.as_ref(), user);
        match &record.body {
            Body::Node { lat, lon } => (head.lat, head.lon) = (lat.cast_unsigned(), lon.cast_unsigned()),
            Body::Way { refs } => {
                head.count = narrow(refs.len())?;
                parts.extend(refs.iter().flat_map(|id| id.to_le_bytes()));
            }
            Body::Relation { members } => {
                head.count = narrow(members.len())?;
                for (member, role) in members.iter().zip(handles.by_ref()) {
                    parts.extend(member.id.to_le_bytes());
                    parts.push(member.kind as u8);
                    parts.extend(role.0.to_le_bytes());
                }
            }
        }
        head.tags = narrow(record.tags.len())?;
        for ((_, value), key) in record.tags.iter().zip(handles) {
            parts.extend(key.0.to_le_bytes());
            parts.extend(narrow(value.len())?.to_le_bytes());
            parts.extend(value.as_bytes());
        }
        let reply = entry::push(self.storage.lent(), record.kind() as u8, head, meta, &parts);
        Refusal::unless_taken(reply.number, reply.held, 0)
    }

    /// Deletes an element, known or not, with the version that the delete claims. Refused 12 or 14.
    pub fn delete(&mut self, kind: ElementKind, id: i64, version: Option<i32>) -> Result<(), Refusal> {
        let metadata = version.map(|_| Metadata::<Handle> { version, ..Metadata::default() });
        let meta = arena_meta(metadata.as_ref(), None);
        let reply = entry::delete(self.storage.lent(), kind as u8, id, meta);
        Refusal::unless_taken(reply.number, reply.held, 0)
    }

    /// How many ids are live.
    pub fn live_count(&self, kind: ElementKind) -> Result<usize, Refusal> {
        count(entry::live_count(self.storage.shared(), kind as u8))
    }

    /// How many ids are deleted.
    pub fn deleted_count(&self, kind: ElementKind) -> Result<usize, Refusal> {
        count(entry::deleted_count(self.storage.shared(), kind as u8))
    }

    /// Whether no id is known.
    pub fn is_empty(&self) -> Result<bool, Refusal> {
        value(entry::is_empty(self.storage.shared())).map(|yes| yes != 0)
    }

    /// The live id of this number, in OSM order. Refused 21 where there are not so many.
    pub fn live_id(&self, kind: ElementKind, n: usize) -> Result<i64, Refusal> {
        value(entry::live_id(self.storage.shared(), kind as u8, n as u64)).map(u64::cast_signed)
    }

    /// The deleted id of this number, in OSM order. Refused 21 where there are not so many.
    pub fn deleted_id(&self, kind: ElementKind, n: usize) -> Result<i64, Refusal> {
        value(entry::deleted_id(self.storage.shared(), kind as u8, n as u64)).map(u64::cast_signed)
    }

    /// The record of the live id of this number. Refused 21 where there are not so many.
    pub fn record(&self, kind: ElementKind, n: usize) -> Result<Record<'_>, Refusal> {
        let record = self.view(kind, entry::record(self.storage.shared(), kind as u8, n as u64))?;
        record.ok_or(Refusal::UNSOUND)
    }

    /// The record of a live id.
    ///
    /// ```
    /// use torvaskin::{ElementKind, Overlay, Record, Sizes};
    ///
    /// let mut overlay = Overlay::new(&Sizes::ROADLIST)?;
    /// overlay.push(&Record::way(5, [1, 2]).version(4).tag("name", "Main St"))?;
    /// overlay.delete(ElementKind::Way, 6, None)?;
    /// let way = overlay.get(ElementKind::Way, 5)?.expect("it was pushed");
    /// assert_eq!((way.id, way.refs(), &way.tags[..]), (5, &[1, 2][..], &[("name", "Main St")][..]));
    /// assert_eq!(overlay.record(ElementKind::Way, 0)?, way);
    /// assert_eq!(overlay.record(ElementKind::Way, 1).unwrap_err().number(), 21);
    /// assert_eq!((overlay.has(ElementKind::Way, 6)?, overlay.is_deleted(ElementKind::Way, 6)?), (false, true));
    /// assert_eq!(overlay.known_version(ElementKind::Way, 6)?, None);
    /// assert_eq!((overlay.live_count(ElementKind::Way)?, overlay.deleted_count(ElementKind::Way)?), (1, 1));
    /// assert_eq!((overlay.live_id(ElementKind::Way, 0)?, overlay.deleted_id(ElementKind::Way, 0)?), (5, 6));
    /// # Ok::<(), torvaskin::Refusal>(())
    /// ```
    pub fn get(&self, kind: ElementKind, id: i64) -> Result<Option<Record<'_>>, Refusal> {
        self.view(kind, entry::get(self.storage.shared(), kind as u8, id))
    }

    /// Whether an id is live.
    pub fn has(&self, kind: ElementKind, id: i64) -> Result<bool, Refusal> {
        value(entry::has(self.storage.shared(), kind as u8, id)).map(|yes| yes != 0)
    }

    /// Whether an id is deleted.
    pub fn is_deleted(&self, kind: ElementKind, id: i64) -> Result<bool, Refusal> {
        value(entry::is_deleted(self.storage.shared(), kind as u8, id)).map(|yes| yes != 0)
    }

    /// The highest version that is held for an id, live or deleted.
    pub fn known_version(&self, kind: ElementKind, id: i64) -> Result<Option<i32>, Refusal> {
        Ok(version_in(value(entry::known_version(self.storage.shared(), kind as u8, id))?))
    }

    /// The text of a handle. Refused 21 where it is not held.
    pub fn text(&self, handle: Handle) -> Result<&str, Refusal> {
        let blocks = self.storage.shared();
        let part = entry::text(blocks, handle.0.into());
        Refusal::unless_taken(part.number, 0, 0)?;
        let text = cut(blocks.texts().bytes, part.start, part.len).and_then(|text| core::str::from_utf8(text).ok());
        text.ok_or(Refusal::UNSOUND)
    }

    /// The live ids in OSM order, with one test of what is lent.
    ///
    /// ```
    /// use torvaskin::{ElementKind, Overlay, Record, Sizes};
    ///
    /// let mut overlay = Overlay::new(&Sizes::ROADLIST)?;
    /// for id in [3, -7, 0, -1] {
    ///     overlay.push(&Record::way(id, []))?;
    /// }
    /// overlay.delete(ElementKind::Way, -1, None)?;
    /// assert_eq!(overlay.live_ids(ElementKind::Way)?, [0, -7, 3]);
    /// assert_eq!(overlay.deleted_ids(ElementKind::Way)?, [-1]);
    /// assert_eq!(overlay.records(ElementKind::Way)?[1], Record::way(-7, []));
    /// # Ok::<(), torvaskin::Refusal>(())
    /// ```
    pub fn live_ids(&self, kind: ElementKind) -> Result<Vec<i64>, Refusal> {
        Ok(self.live_versions(kind)?.into_iter().map(|(id, _)| id).collect())
    }

    /// The live ids in OSM order, each with its known version, with one test of what is lent.
    pub fn live_versions(&self, kind: ElementKind) -> Result<Vec<(i64, Option<i32>)>, Refusal> {
        self.versions(kind, entry::live_ids)
    }

    /// The deleted ids in OSM order, with one test of what is lent.
    pub fn deleted_ids(&self, kind: ElementKind) -> Result<Vec<i64>, Refusal> {
        Ok(self.deleted_versions(kind)?.into_iter().map(|(id, _)| id).collect())
    }

    /// The deleted ids in OSM order, each with its known version, with one test of what is lent.
    ///
    /// ```
    /// use torvaskin::{ElementKind, Overlay, Record, Sizes};
    ///
    /// let mut overlay = Overlay::new(&Sizes::ROADLIST)?;
    /// overlay.push(&Record::way(5, []).version(2))?;
    /// overlay.push(&Record::way(6, []))?;
    /// overlay.delete(ElementKind::Way, 5, Some(3))?;
    /// assert_eq!(overlay.deleted_versions(ElementKind::Way)?, [(5, Some(3))]);
    /// assert_eq!(overlay.live_versions(ElementKind::Way)?, [(6, None)]);
    /// # Ok::<(), torvaskin::Refusal>(())
    /// ```
    pub fn deleted_versions(&self, kind: ElementKind) -> Result<Vec<(i64, Option<i32>)>, Refusal> {
        self.versions(kind, entry::deleted_ids)
    }

    /// Ids and known versions by an entry that fills two lists.
    fn versions(
        &self,
        kind: ElementKind,
        fill: fn(Shared<'_>, u8, &mut [u64], &mut [u64]) -> Number,
    ) -> Result<Vec<(i64, Option<i32>)>, Refusal> {
        let blocks = self.storage.shared();
        let most = blocks.part(kind).rows.len();
        let (mut ids, mut versions) = (vec![0; most], vec![0; most]);
        let count = value(fill(blocks, kind as u8, &mut ids, &mut versions))?;
        let known = ids.into_iter().zip(versions).map(|(id, word)| (id.cast_signed(), version_in(word)));
        Ok(known.take(usize::try_from(count).unwrap_or(most)).collect())
    }

    /// The records of the live ids in OSM order, with one test of what is lent.
    pub fn records(&self, kind: ElementKind) -> Result<Vec<Record<'_>>, Refusal> {
        let blocks = self.storage.shared();
        let (arena, texts) = (blocks.part(kind).arena, blocks.texts());
        let live = self.rows(kind)?.filter(|row| row.1 < DELETED);
        let records = live.map(|(_, start)| Record::read(kind, arena.get(usize::try_from(start).ok()?..)?, texts));
        records.collect::<Option<_>>().ok_or(Refusal::UNSOUND)
    }

    /// The known ids, and where the record of each starts.
    fn rows(&self, kind: ElementKind) -> Result<impl Iterator<Item = (i64, u64)>, Refusal> {
        self.is_sound()?;
        let blocks = self.storage.shared();
        let rows = blocks.part(kind).rows;
        let used = usize::try_from(blocks.counters[kind as usize]).unwrap_or(rows.len());
        Ok(rows.iter().take(used).map(|[rank, start, _]| (id_of(*rank), *start)))
    }

    /// What an entry found.
    fn view(&self, kind: ElementKind, part: Part) -> Result<Option<Record<'_>>, Refusal> {
        Refusal::unless_taken(part.number, 0, 0)?;
        if part.found == 0 {
            return Ok(None);
        }
        let blocks = self.storage.shared();
        let data = cut(blocks.part(kind).arena, part.start, part.len);
        let record = data.and_then(|data| Record::read(kind, data, blocks.texts()));
        record.map(Some).ok_or(Refusal::UNSOUND)
    }

    /// The listing. Refused 19 where it has more bytes than these, before memory is taken for it.
    pub fn listing(&self, most: usize) -> Result<String, Refusal> {
        let len = self.listing_len()?;
        let mut out = Vec::new();
        if len > most || out.try_reserve_exact(len).is_err() {
            return Err(Refusal::of(Reason::ShortOutput));
        }
        out.resize(len, 0);
        self.listing_into(&mut out)?;
        String::from_utf8(out).map_err(|_| Refusal::UNSOUND)
    }

    /// How many bytes the listing has: [`Overlay::listing_into`] writes it into an output of that many bytes or more.
    ///
    /// ```
    /// use torvaskin::{ElementKind, Overlay, Sizes};
    ///
    /// let mut overlay = Overlay::new(&Sizes::ROADLIST)?;
    /// assert_eq!(overlay.listing_len()?, 0);
    /// overlay.delete(ElementKind::Node, 8, None)?;
    /// assert_eq!(overlay.listing_len()?, 8);
    /// # Ok::<(), torvaskin::Refusal>(())
    /// ```
    pub fn listing_len(&self) -> Result<usize, Refusal> {
        let listed = entry::listing_length(self.storage.shared());
        Refusal::unless_taken(listed.number, 0, 0)?;
        Ok(listed.length)
    }

    /// The listing at the start of an output, whose other bytes stay as they are. Refused 19 where it does not fit.
    ///
    /// ```
    /// use torvaskin::{ElementKind, Overlay, Sizes};
    ///
    /// let mut overlay = Overlay::new(&Sizes::ROADLIST)?;
    /// overlay.delete(ElementKind::Node, 8, None)?;
    /// let mut out = [b'.'; 9];
    /// assert_eq!(overlay.listing_into(&mut out)?, "n\t8\t-\t?\n");
    /// assert_eq!(&out, b"n\t8\t-\t?\n.");
    /// # Ok::<(), torvaskin::Refusal>(())
    /// ```
    pub fn listing_into<'o>(&self, out: &'o mut [u8]) -> Result<&'o str, Refusal> {
        let listed = entry::listing(self.storage.shared(), out);
        Refusal::unless_taken(listed.number, 0, 0)?;
        let listing = out.get(..listed.length).and_then(|listing| core::str::from_utf8(listing).ok());
        listing.ok_or(Refusal::UNSOUND)
    }
}

/// The names of a record, in the order in which they are taken in: its user, the roles, the keys.
fn names<'r, N: Name>(record: &'r Record<'_, N>) -> impl Iterator<Item = N> + use<'r, N> {
    let user = record.metadata.and_then(|metadata| metadata.user);
    let roles = record.members().iter().map(|member| member.role);
    user.into_iter().chain(roles).chain(record.tags.iter().map(|tag| tag.0))
}

/// Metadata as a push has it, with its user's handle.
fn arena_meta<N>(metadata: Option<&Metadata<N>>, user: Option<Handle>) -> ArenaMeta {
    let Some(metadata) = metadata else { return ArenaMeta::default() };
    let flag = |given, flag| if given { flag } else { 0 };
    ArenaMeta {
        flags: PRESENT
            | flag(metadata.hidden, HIDDEN)
            | flag(user.is_some(), HAS_USER)
            | flag(metadata.version.is_some(), HAS_VERSION),
        version: metadata.version.unwrap_or(0).cast_unsigned(),
        timestamp: metadata.timestamp.cast_unsigned(),
        changeset: metadata.changeset.cast_unsigned(),
        uid: metadata.uid.cast_unsigned(),
        user: user.unwrap_or_default().0,
    }
}

/// A handle that an entry gave.
fn handle(word: u64) -> Result<Handle, Refusal> {
    u32::try_from(word).map(Handle).map_err(|_| Refusal::UNSOUND)
}

/// A row's place from here on is that of a deleted id.
const DELETED: u64 = 1 << 63;

/// The id of a rank: 0 for 0, -m for m, p for 2^63 + p.
fn id_of(rank: u64) -> i64 {
    if rank <= DELETED { rank.cast_signed().wrapping_neg() } else { (rank - DELETED).cast_signed() }
}

/// A version in a word; 2^32 and up is none.
fn version_in(word: u64) -> Option<i32> {
    u32::try_from(word).ok().map(u32::cast_signed)
}

fn value(reply: Number) -> Result<u64, Refusal> {
    Refusal::unless_taken(reply.number, 0, 0).map(|()| reply.value)
}

fn count(reply: Number) -> Result<usize, Refusal> {
    usize::try_from(value(reply)?).map_err(|_| Refusal::UNSOUND)
}

/// A length in a record.
fn narrow(len: usize) -> Result<u32, Refusal> {
    u32::try_from(len).map_err(|_| Refusal::of(Reason::TooManyParts))
}
