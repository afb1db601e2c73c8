//! Names as numbers, and how names and pairs of numbers are hashed.

use super::tables::Table;
use std::hash::{BuildHasher, RandomState};

/// A factor of the hashes: the digits of π.
const FACTOR: u64 = 0x243f_6a88_85a3_08d3;

/// Multiplies in 128 bits and folds the halves, so that every bit counts.
fn fold(number: u64) -> u64 {
    let product = u128::from(number) * u128::from(FACTOR);
    product as u64 ^ (product >> 64) as u64
}

/// How names and pairs of numbers are hashed: with a seed, so that a file whose names all meet is not easily made.
#[derive(Clone, Copy)]
pub struct Hash(u64);

impl Hash {
    /// A hash with a seed of its own.
    pub fn new() -> Hash {
        Hash(RandomState::new().hash_one(FACTOR))
    }

    #[inline]
    fn name(self, name: &[u8]) -> u32 {
        let (words, tail) = name.as_chunks::<8>();
        let mut hash = self.0 ^ name.len() as u64;
        for word in words {
            hash = fold(hash ^ u64::from_le_bytes(*word));
        }
        let tail = tail
            .iter()
            .fold(0, |tail, byte| tail << 8 | u64::from(*byte));
        (fold(hash ^ tail) >> 32) as u32
    }

    /// The hash of a pair of numbers, as those of a package and a name.
    #[inline]
    pub fn pair(self, left: u32, right: u32) -> u32 {
        (fold(self.0 ^ (u64::from(left) << 32 | u64::from(right))) >> 32) as u32
    }
}

/// The number of nothing.
pub const NOTHING: u32 = u32::MAX;

/// The feature and the group of dependencies that were noted last for a name, or nothing.
#[derive(Clone, Copy)]
pub struct Noted {
    pub feature: u32,
    pub group: u32,
}

/// The names of a file, each with a number, and what was noted last for each.
pub struct Names<'a> {
    hash: Hash,
    table: Table,
    names: Vec<&'a [u8]>,
    noted: Vec<Noted>,
}

impl<'a> Names<'a> {
    /// No names yet, with room for so many.
    pub fn with_room(hash: Hash, count: usize) -> Names<'a> {
        Names {
            hash,
            table: Table::with_room(count),
            names: Vec::with_capacity(count),
            noted: Vec::with_capacity(count),
        }
    }

    /// The number of a name. A new one gets the next number.
    #[inline]
    pub fn number(&mut self, name: &'a [u8]) -> u32 {
        let number = self.names.len() as u32;
        let is = |it: u32| self.names[it as usize] == name;
        let found = self.table.get_or_put(self.hash.name(name), number, is);
        if found.is_none() {
            self.names.push(name);
            self.noted.push(Noted {
                feature: NOTHING,
                group: NOTHING,
            });
        }
        found.unwrap_or(number)
    }

    /// What was noted last for the name of a number.
    #[inline]
    pub fn noted(&self, number: u32) -> Noted {
        self.noted[number as usize]
    }

    /// The same, to be changed.
    #[inline]
    pub fn noted_mut(&mut self, number: u32) -> &mut Noted {
        &mut self.noted[number as usize]
    }
}
