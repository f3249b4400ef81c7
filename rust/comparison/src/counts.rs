//! How often each of some things was met.

use std::collections::BTreeMap;
use std::fmt::Display;

/// A count for each key that was met.
pub struct Counts<K>(BTreeMap<K, u64>);

impl<K> Default for Counts<K> {
    fn default() -> Counts<K> {
        Counts(BTreeMap::new())
    }
}

impl<K: Ord> Counts<K> {
    pub fn count(&mut self, key: K) {
        *self.0.entry(key).or_default() += 1;
    }

    pub fn count_if(&mut self, met: bool, key: K) {
        if met {
            self.count(key);
        }
    }

    pub fn of(&self, key: &K) -> u64 {
        self.0.get(key).copied().unwrap_or(0)
    }

    /// Adds what another part of the run has counted.
    pub fn add(&mut self, other: Counts<K>) {
        for (key, count) in other.0 {
            *self.0.entry(key).or_default() += count;
        }
    }

    pub fn iter(&self) -> impl Iterator<Item = (&K, &u64)> {
        self.0.iter()
    }
}

impl<K: Ord + Display> Counts<K> {
    /// A line for each key, after these words.
    pub fn print(&self, words: &str) {
        for (key, count) in &self.0 {
            println!("{count:9} {words}{key}");
        }
    }
}
