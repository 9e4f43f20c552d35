//! A stand-in for `hashbrown::HashTable`: values filed under a hash that the caller works out.

use std::collections::BTreeMap;

pub struct HashTable<T> {
    filed: BTreeMap<u64, Vec<T>>,
}

impl<T> Default for HashTable<T> {
    fn default() -> Self {
        Self { filed: BTreeMap::new() }
    }
}

impl<T> HashTable<T> {
    pub fn find(&self, hash: u64, mut eq: impl FnMut(&T) -> bool) -> Option<&T> {
        self.filed.get(&hash)?.iter().find(|value| eq(value))
    }

    pub fn insert_unique(&mut self, hash: u64, value: T, _hasher: impl Fn(&T) -> u64) {
        self.filed.entry(hash).or_default().push(value);
    }

    pub fn find_entry(&mut self, hash: u64, eq: impl FnMut(&T) -> bool) -> Result<OccupiedEntry<'_, T>, ()> {
        let values = self.filed.get_mut(&hash).ok_or(())?;
        let at = values.iter().position(eq).ok_or(())?;
        Ok(OccupiedEntry { values, at })
    }

    pub fn clear(&mut self) {
        self.filed.clear();
    }
}

pub struct OccupiedEntry<'a, T> {
    values: &'a mut Vec<T>,
    at: usize,
}

impl<T> OccupiedEntry<'_, T> {
    pub fn remove(self) {
        self.values.swap_remove(self.at);
    }
}
