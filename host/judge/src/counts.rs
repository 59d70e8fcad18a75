//! How often each number was answered.

use std::collections::BTreeMap;

/// For each kind of call, how often it answered each number.
pub struct Counts<K>(BTreeMap<K, BTreeMap<u32, u64>>);

impl<K: Ord> Counts<K> {
    pub fn new() -> Self {
        Counts(BTreeMap::new())
    }

    pub fn count(&mut self, kind: K, number: u32) {
        *self.0.entry(kind).or_default().entry(number).or_default() += 1;
    }

    /// How many calls there were, of the kinds that are meant.
    pub fn calls(&self, meant: impl Fn(&K) -> bool) -> u64 {
        let own = self.0.iter().filter(|(kind, _)| meant(kind));
        own.flat_map(|(_, numbers)| numbers.values()).sum()
    }

    /// How often a number was answered, by the kinds that are meant.
    pub fn answered(&self, meant: impl Fn(&K) -> bool, number: u32) -> u64 {
        let own = self.0.iter().filter(|(kind, _)| meant(kind));
        own.filter_map(|(_, numbers)| numbers.get(&number)).sum()
    }

    /// A line for each kind; `words` says what it is about, its run and its call.
    pub fn print(&self, words: impl Fn(&K) -> [String; 3]) {
        println!("{:<10}{:<12}{:<12}{:>10}{:>10}   refused, by number", "of", "run", "call", "calls", "done");
        for (kind, numbers) in &self.0 {
            let (calls, done) = (numbers.values().sum::<u64>(), numbers.get(&0).copied().unwrap_or(0));
            let refused: Vec<String> =
                numbers.iter().filter(|(n, _)| **n > 0).map(|(n, count)| format!("{n}: {count}")).collect();
            let [of, run, call] = words(kind);
            println!("{of:<10}{run:<12}{call:<12}{calls:>10}{done:>10}   {}", refused.join(", "));
        }
    }
}
