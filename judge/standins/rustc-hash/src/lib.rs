//! Stand-in for the map type that the published files name. No result depends on the hash function.

use std::collections::HashMap;
use std::hash::{BuildHasherDefault, DefaultHasher};

pub type FxHashMap<K, V> = HashMap<K, V, BuildHasherDefault<DefaultHasher>>;
