//! Maps and sets of which each call that takes memory says whether there was some; those of std
//! would end the process.

use super::alloc::{AllocError, Global};
use std::hash::Hash;
use std::vec::Vec;

// How many items a block has at most.
const FULL: usize = 256;

/// A map by order: blocks of items, each sorted, one after the other. None is empty.
#[derive(Debug)]
pub struct BTreeMap<K, V> {
    blocks: Vec<Vec<(K, V)>>,
}

fn room<T>(items: &mut Vec<T>, more: usize) -> Result<(), AllocError> {
    items.try_reserve(more).map_err(|_| AllocError)
}

impl<K: Ord, V> BTreeMap<K, V> {
    pub fn new(_: Global) -> BTreeMap<K, V> {
        BTreeMap { blocks: Vec::new() }
    }

    // The block in which a key belongs.
    fn block_of(&self, key: &K) -> usize {
        let after = self.blocks.partition_point(|block| block[0].0 <= *key);
        after.saturating_sub(1)
    }

    pub fn get(&self, key: &K) -> Option<&V> {
        let block = self.blocks.get(self.block_of(key))?;
        let at = block.binary_search_by(|item| item.0.cmp(key)).ok()?;
        Some(&block[at].1)
    }

    pub fn contains_key(&self, key: &K) -> bool {
        self.get(key).is_some()
    }

    /// Puts a value in, and answers the one that stood there. Where memory is wanting the map
    /// is as before.
    pub fn insert(&mut self, key: K, value: V) -> Result<Option<V>, AllocError> {
        if self.blocks.is_empty() {
            let mut block = Vec::new();
            room(&mut block, FULL)?;
            room(&mut self.blocks, 1)?;
            block.push((key, value));
            self.blocks.push(block);
            return Ok(None);
        }
        let mut number = self.block_of(&key);
        let mut at = match self.blocks[number].binary_search_by(|item| item.0.cmp(&key)) {
            Ok(at) => {
                return Ok(Some(std::mem::replace(&mut self.blocks[number][at].1, value)));
            }
            Err(at) => at,
        };
        if self.blocks[number].len() == FULL {
            let mut rest = Vec::new();
            room(&mut rest, FULL)?;
            room(&mut self.blocks, 1)?;
            // Keys that come in order fill each block.
            let cut = if at == FULL && number + 1 == self.blocks.len() { FULL } else { FULL / 2 };
            if cut == FULL {
                rest.push((key, value));
                self.blocks.push(rest);
                return Ok(None);
            }
            rest.extend(self.blocks[number].drain(cut..));
            self.blocks.insert(number + 1, rest);
            if at > cut {
                number += 1;
                at -= cut;
            }
        }
        self.blocks[number].insert(at, (key, value));
        Ok(None)
    }
}

#[derive(Debug)]
pub struct BTreeSet<K>(BTreeMap<K, ()>);

impl<K: Ord> BTreeSet<K> {
    pub fn new(alloc: Global) -> BTreeSet<K> {
        BTreeSet(BTreeMap::new(alloc))
    }

    /// Answers whether the key is new.
    pub fn insert(&mut self, key: K) -> Result<bool, AllocError> {
        Ok(self.0.insert(key, ())?.is_none())
    }
}

/// That of std, where each insertion says whether there was memory.
#[derive(Debug)]
pub struct HashMap<K, V>(std::collections::HashMap<K, V>);

impl<K: Hash + Eq, V> HashMap<K, V> {
    pub fn new(_: Global) -> HashMap<K, V> {
        HashMap(std::collections::HashMap::new())
    }

    pub fn get(&self, key: &K) -> Option<&V> {
        self.0.get(key)
    }

    /// Puts a value in, and answers the one that stood there. Where memory is wanting the map is
    /// as before.
    pub fn insert(&mut self, key: K, value: V) -> Result<Option<V>, AllocError> {
        self.0.try_reserve(1).map_err(|_| AllocError)?;
        Ok(self.0.insert(key, value))
    }
}

#[cfg(test)]
mod tests {
    use super::*;

    #[test]
    fn a_hash_map_answers_what_was_put_in_last() {
        let mut map = HashMap::new(Global);
        assert_eq!(map.insert(3, "three"), Ok(None));
        assert_eq!(map.insert(3, "drei"), Ok(Some("three")));
        assert_eq!((map.get(&3), map.get(&4)), (Some(&"drei"), None));
    }

    #[test]
    fn is_the_map_of_std() {
        let (mut mine, mut theirs) = (BTreeMap::new(Global), std::collections::BTreeMap::new());
        let mut x = 1u64;
        for n in 0..20_000u64 {
            x = x.wrapping_mul(6364136223846793005).wrapping_add(1442695040888963407);
            let key = if n % 3 == 0 { n } else { (x >> 33) % 9000 };
            assert_eq!(mine.get(&key), theirs.get(&key));
            assert_eq!(mine.insert(key, n), Ok(theirs.insert(key, n)));
        }
        for key in 0..20_001 {
            assert_eq!(mine.get(&key), theirs.get(&key));
        }
    }
}
