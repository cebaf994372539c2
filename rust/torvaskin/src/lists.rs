//! Ids in OSM order, and lookups in lists of them.

use core::cmp::Ordering;
use core::ops::Range;

pub use crate::entry::OsmIdKey;
use crate::{Refusal, entry};

/// Whether an id of either list could lie in a blob that claims ids from `min` to `max`. Refused 20 where a list is not in
/// OSM order.
///
/// ```
/// assert!(torvaskin::lists::range_overlaps(&[-100], &[], -5, 3)?);
/// assert!(!torvaskin::lists::range_overlaps(&[100], &[], -5, 3)?);
/// # Ok::<(), torvaskin::Refusal>(())
/// ```
pub fn range_overlaps(live: &[i64], deleted: &[i64], min: i64, max: i64) -> Result<bool, Refusal> {
    let reply = entry::range_overlaps(live, deleted, min, max);
    Refusal::unless_taken(reply.number, 0, 0).map(|()| reply.value != 0)
}

/// The places of the ids from `first` to `last` in OSM order. Refused 20.
///
/// ```
/// assert_eq!(torvaskin::lists::upsert_range(&[0, -2, 5, 9], -1, 5)?, 1..3);
/// # Ok::<(), torvaskin::Refusal>(())
/// ```
pub fn upsert_range(ids: &[i64], first: i64, last: i64) -> Result<Range<usize>, Refusal> {
    let places = entry::upsert_range(ids, first, last);
    Refusal::unless_taken(places.number, 0, 0).map(|()| places.from..places.to)
}

/// A cursor that finds ids in a list and only moves forward.
///
/// ```
/// let (ids, mut seek) = ([0, -2, 5, 9], torvaskin::lists::Seek::default());
/// assert_eq!(seek.find(&ids, -2)?, Some(1));
/// assert_eq!(seek.find(&ids, 9)?, Some(3));
/// assert_eq!(seek.find(&ids, -2)?, None);
/// # Ok::<(), torvaskin::Refusal>(())
/// ```
#[derive(Clone, Copy, Debug, Default, PartialEq, Eq)]
pub struct Seek(Option<usize>);

impl Seek {
    /// The place of an id; of one behind the cursor none. Refused 20.
    pub fn find(&mut self, ids: &[i64], id: i64) -> Result<Option<usize>, Refusal> {
        let place = |word| (word < NO_PLACE).then_some(word);
        let cursor = entry::seek_find(ids, self.0.unwrap_or(NO_PLACE), id);
        Refusal::unless_taken(cursor.number, 0, 0)?;
        self.0 = place(cursor.place);
        Ok(place(cursor.found))
    }
}

/// A word from here on is no place.
const NO_PLACE: usize = 1 << 63;

/// The key of an id: OSM order is the keys' order.
///
/// ```
/// use torvaskin::lists::{OsmIdKey, osm_id_key};
///
/// assert_eq!(osm_id_key(-1), OsmIdKey { class: 1, magnitude: 1 });
/// assert!(osm_id_key(-1) < osm_id_key(1));
/// ```
pub fn osm_id_key(id: i64) -> OsmIdKey {
    entry::osm_id_key(id)
}

/// OSM order: 0, then negative ids by growing magnitude, then positive ones.
///
/// ```
/// let mut ids = [3, -7, 0, -1];
/// ids.sort_by(|a, b| torvaskin::lists::osm_id_cmp(*a, *b));
/// assert_eq!(ids, [0, -1, -7, 3]);
/// ```
pub fn osm_id_cmp(a: i64, b: i64) -> Ordering {
    entry::osm_id_cmp(a, b).cmp(&1)
}

/// The first key that a blob of ids from `min` to `max` can hold.
///
/// ```
/// use torvaskin::lists::{blob_osm_first_key, osm_id_key};
///
/// assert_eq!(blob_osm_first_key(3, 9), osm_id_key(3));
/// ```
pub fn blob_osm_first_key(min: i64, max: i64) -> OsmIdKey {
    entry::blob_osm_first_key(min, max)
}

/// The last key that a blob of ids from `min` to `max` can hold.
///
/// ```
/// use torvaskin::lists::{blob_osm_last_key, osm_id_key};
///
/// assert_eq!(blob_osm_last_key(3, 9), osm_id_key(9));
/// ```
pub fn blob_osm_last_key(min: i64, max: i64) -> OsmIdKey {
    entry::blob_osm_last_key(min, max)
}
