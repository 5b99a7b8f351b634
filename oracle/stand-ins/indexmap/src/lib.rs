//! A map that is walked in the order in which its keys were first inserted. It has the few calls of the crate of
//! the same name that the planner makes; inserting a key again changes its value and keeps its place.

use std::borrow::Borrow;
use std::collections::HashMap;
use std::hash::Hash;

/// Entries in a row and, beside them, where each key stands.
#[derive(Clone, Debug)]
pub struct IndexMap<K, V> {
    entries: Vec<(K, V)>,
    places: HashMap<K, usize>,
}

/// A key's place in the map, taken or free.
pub struct Entry<'a, K, V> {
    map: &'a mut IndexMap<K, V>,
    key: K,
}

impl<K, V> Default for IndexMap<K, V> {
    fn default() -> Self {
        IndexMap {
            entries: Vec::new(),
            places: HashMap::new(),
        }
    }
}

impl<K, V> IndexMap<K, V> {
    pub fn new() -> Self {
        Self::default()
    }

    pub fn len(&self) -> usize {
        self.entries.len()
    }

    pub fn is_empty(&self) -> bool {
        self.entries.is_empty()
    }

    pub fn iter(&self) -> impl Iterator<Item = (&K, &V)> + Clone {
        self.entries.iter().map(|(k, v)| (k, v))
    }

    pub fn keys(&self) -> impl Iterator<Item = &K> {
        self.entries.iter().map(|(k, _)| k)
    }

    pub fn values(&self) -> impl Iterator<Item = &V> {
        self.entries.iter().map(|(_, v)| v)
    }
}

impl<K: Hash + Eq + Clone, V> IndexMap<K, V> {
    pub fn get<Q>(&self, key: &Q) -> Option<&V>
    where
        K: Borrow<Q>,
        Q: Hash + Eq + ?Sized,
    {
        self.places.get(key).map(|&place| &self.entries[place].1)
    }

    pub fn insert(&mut self, key: K, value: V) -> Option<V> {
        if let Some(&place) = self.places.get(&key) {
            return Some(std::mem::replace(&mut self.entries[place].1, value));
        }
        self.places.insert(key.clone(), self.entries.len());
        self.entries.push((key, value));
        None
    }

    pub fn entry(&mut self, key: K) -> Entry<'_, K, V> {
        Entry { map: self, key }
    }
}

impl<'a, K: Hash + Eq + Clone, V: Default> Entry<'a, K, V> {
    pub fn or_default(self) -> &'a mut V {
        let Entry { map, key } = self;
        let place = match map.places.get(&key) {
            Some(&place) => place,
            None => {
                map.insert(key, V::default());
                map.entries.len() - 1
            }
        };
        &mut map.entries[place].1
    }
}

/// Equal when both hold the same keys with equal values, in whatever order.
impl<K: Hash + Eq + Clone, V: PartialEq> PartialEq for IndexMap<K, V> {
    fn eq(&self, other: &Self) -> bool {
        self.len() == other.len() && self.iter().all(|(k, v)| other.get(k) == Some(v))
    }
}

impl<K: Hash + Eq + Clone, V> FromIterator<(K, V)> for IndexMap<K, V> {
    fn from_iter<I: IntoIterator<Item = (K, V)>>(pairs: I) -> Self {
        let mut map = Self::new();
        for (key, value) in pairs {
            map.insert(key, value);
        }
        map
    }
}

impl<'a, K, V> IntoIterator for &'a IndexMap<K, V> {
    type Item = (&'a K, &'a V);
    type IntoIter = Box<dyn Iterator<Item = Self::Item> + 'a>;

    fn into_iter(self) -> Self::IntoIter {
        Box::new(self.iter())
    }
}

impl<'a, K, V> IntoIterator for &'a mut IndexMap<K, V> {
    type Item = (&'a K, &'a mut V);
    type IntoIter = Box<dyn Iterator<Item = Self::Item> + 'a>;

    fn into_iter(self) -> Self::IntoIter {
        Box::new(self.entries.iter_mut().map(|(k, v)| (&*k, v)))
    }
}

#[cfg(test)]
mod tests {
    use super::IndexMap;

    #[test]
    fn a_key_inserted_again_keeps_its_place() {
        let mut map: IndexMap<&str, u8> = [("b", 1), ("a", 2), ("c", 3)].into_iter().collect();
        assert_eq!(map.insert("b", 9), Some(1));
        *map.entry("d").or_default() += 4;
        *map.entry("a").or_default() += 4;
        let row: Vec<_> = map.iter().map(|(k, v)| (*k, *v)).collect();
        assert_eq!(row, [("b", 9), ("a", 6), ("c", 3), ("d", 4)]);
    }
}
