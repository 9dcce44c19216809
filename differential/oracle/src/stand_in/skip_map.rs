//! A stand-in of our own for the concurrent sorted map. An equal key replaces
//! the old key and value together; an inverted range holds nothing.

use std::collections::BTreeMap;
use std::ops::{Bound, RangeBounds};
use std::sync::{Arc, RwLock};

pub struct SkipMap<K, V> {
    map: RwLock<Arc<BTreeMap<K, V>>>,
}

pub struct Entry<K, V> {
    key: K,
    value: V,
}

/// Walks the map as it stood at the start, from both ends.
pub struct Walk<K, V> {
    map: Arc<BTreeMap<K, V>>,
    lower: Bound<K>,
    upper: Bound<K>,
}

impl<K, V> Default for SkipMap<K, V> {
    fn default() -> Self {
        Self {
            map: RwLock::new(Arc::new(BTreeMap::new())),
        }
    }
}

impl<K: Ord + Clone, V: Clone> SkipMap<K, V> {
    fn now(&self) -> Arc<BTreeMap<K, V>> {
        self.map.read().expect("no writer panics").clone()
    }

    pub fn insert(&self, key: K, value: V) {
        let mut held = self.map.write().expect("no writer panics");
        let map = Arc::make_mut(&mut held);
        // The map alone would keep the old key, and the old tag with it.
        map.remove(&key);
        map.insert(key, value);
    }

    pub fn len(&self) -> usize {
        self.now().len()
    }

    pub fn is_empty(&self) -> bool {
        self.now().is_empty()
    }

    pub fn iter(&self) -> Walk<K, V> {
        self.range(..)
    }

    pub fn range<R: RangeBounds<K>>(&self, range: R) -> Walk<K, V> {
        Walk {
            map: self.now(),
            lower: range.start_bound().cloned(),
            upper: range.end_bound().cloned(),
        }
    }
}

impl<K, V> Entry<K, V> {
    pub fn key(&self) -> &K {
        &self.key
    }

    pub fn value(&self) -> &V {
        &self.value
    }
}

impl<K: Ord, V> Walk<K, V> {
    /// An ordered map panics where the ends cross; here nothing is left then.
    fn crossed(&self) -> bool {
        match (&self.lower, &self.upper) {
            (Bound::Unbounded, _) | (_, Bound::Unbounded) => false,
            (Bound::Included(lower), Bound::Included(upper)) => lower > upper,
            (
                Bound::Included(lower) | Bound::Excluded(lower),
                Bound::Included(upper) | Bound::Excluded(upper),
            ) => lower >= upper,
        }
    }

    fn left(&self) -> Option<impl DoubleEndedIterator<Item = (&K, &V)>> {
        let ends = (self.lower.as_ref(), self.upper.as_ref());
        (!self.crossed()).then(|| self.map.range::<K, _>(ends))
    }
}

fn entry<K: Clone, V: Clone>((key, value): (&K, &V)) -> Entry<K, V> {
    Entry {
        key: key.clone(),
        value: value.clone(),
    }
}

impl<K: Ord + Clone, V: Clone> Iterator for Walk<K, V> {
    type Item = Entry<K, V>;

    fn next(&mut self) -> Option<Self::Item> {
        let first = entry(self.left()?.next()?);
        self.lower = Bound::Excluded(first.key.clone());
        Some(first)
    }
}

impl<K: Ord + Clone, V: Clone> DoubleEndedIterator for Walk<K, V> {
    fn next_back(&mut self) -> Option<Self::Item> {
        let last = entry(self.left()?.next_back()?);
        self.upper = Bound::Excluded(last.key.clone());
        Some(last)
    }
}
