//! A hash table of numbers.

/// Numbers that are found by a hash. What they stand for is kept elsewhere, and compared by the caller.
pub struct Table {
    // the upper half of a slot is the hash, the lower one the number plus 1; a free slot is 0
    slots: Vec<u64>,
    count: usize,
}

impl Table {
    /// An empty table, with room for so many numbers before it grows.
    pub fn with_room(count: usize) -> Table {
        Table {
            slots: vec![0; (2 * count).next_power_of_two().max(16)],
            count: 0,
        }
    }

    /// The number with this hash of which `is` holds; else the place where it would stand.
    #[inline]
    fn find(&self, hash: u32, is: impl Fn(u32) -> bool) -> Result<u32, usize> {
        let mask = self.slots.len() - 1;
        let mut place = hash as usize & mask;
        loop {
            let slot = self.slots[place];
            if slot == 0 {
                return Err(place);
            }
            let number = slot as u32 - 1;
            if (slot >> 32) as u32 == hash && is(number) {
                return Ok(number);
            }
            place = (place + 1) & mask;
        }
    }

    /// The number with this hash of which `is` holds.
    #[inline]
    pub fn get(&self, hash: u32, is: impl Fn(u32) -> bool) -> Option<u32> {
        self.find(hash, is).ok()
    }

    /// The number with this hash of which `is` holds; if there is none, `number` is put in.
    #[inline]
    pub fn get_or_put(&mut self, hash: u32, number: u32, is: impl Fn(u32) -> bool) -> Option<u32> {
        match self.find(hash, is) {
            Ok(found) => Some(found),
            Err(place) => {
                self.slots[place] = u64::from(hash) << 32 | u64::from(number + 1);
                self.count += 1;
                if 2 * self.count > self.slots.len() {
                    self.grow();
                }
                None
            }
        }
    }

    /// Puts in a number that is not there yet.
    #[inline]
    pub fn put(&mut self, hash: u32, number: u32) {
        self.get_or_put(hash, number, |_| false);
    }

    /// Makes room for twice as many numbers.
    #[cold]
    fn grow(&mut self) {
        let mut slots = vec![0; 2 * self.slots.len()];
        let mask = slots.len() - 1;
        for slot in self.slots.iter().filter(|slot| **slot != 0) {
            let mut place = (slot >> 32) as usize & mask;
            while slots[place] != 0 {
                place = (place + 1) & mask;
            }
            slots[place] = *slot;
        }
        self.slots = slots;
    }
}
