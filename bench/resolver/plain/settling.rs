//! Settling under host-split: the trail of docs/sessions.md, by an index from items to their rows.

use super::refusals::{Reason, Refusal};
use super::rows::{NO_LANE, NONE};
use super::{HEAD, WIDTH};

/// The sides, as docs/policies.md numbers them.
const TARGET: u32 = 0;
const HOST: u32 = 1;

/// An active item, and the trail numbers of what made it active, or none.
#[derive(Clone, Copy, PartialEq, Eq, Debug)]
pub struct TrailRecord {
    pub item: u32,
    pub first: u32,
    pub second: u32,
}

/// A watch entry of an item, by local numbers: its partner or none, its conclusion, and where that is.
#[derive(Clone, Copy, Default)]
struct Entry {
    partner: u32,
    conclusion: u32,
    lane: u8,
    cross: bool,
}

/// The watch entries item by item, those of each in the order of their rows.
struct Index {
    entries: Vec<Entry>,
    first: Vec<u32>,
}

impl Index {
    fn of(rows: &[[u32; WIDTH]], items: u32) -> Index {
        let mut first = vec![0; items as usize + 2];
        for [from, with, ..] in rows {
            first[*from as usize + 2] += 1;
            if with != from && *with != NONE {
                first[*with as usize + 2] += 1;
            }
        }
        for place in 2..first.len() {
            first[place] += first[place - 1];
        }
        let mut index = Index {
            entries: vec![Entry::default(); first[first.len() - 1] as usize],
            first,
        };
        index.fill(rows);
        index
    }

    /// Puts the entries in. Until then the place of an item in `first` is one too high, and grows to that of the next.
    fn fill(&mut self, rows: &[[u32; WIDTH]]) {
        for [from, with, to, lane, cross] in rows {
            let entry = |partner: u32| Entry {
                partner,
                conclusion: *to,
                lane: *lane as u8,
                cross: *cross == 1,
            };
            self.put(*from, entry(*with));
            if with != from && *with != NONE {
                self.put(*with, entry(*from));
            }
        }
    }

    fn put(&mut self, item: u32, entry: Entry) {
        let next = &mut self.first[item as usize + 1];
        self.entries[*next as usize] = entry;
        *next += 1;
    }

    fn entries(&self, item: u32) -> &[Entry] {
        let [first, last] = [0, 1].map(|step| self.first[item as usize + step] as usize);
        &self.entries[first..last]
    }
}

/// Where a lane leads from a side.
fn lead(lane: u8, side: u32) -> u32 {
    match lane {
        0 | 2 => side,
        lane if u32::from(lane) == NO_LANE => side,
        _ => HOST,
    }
}

/// The trail so far, and the trail number of each item, or none.
struct Trail {
    records: Vec<TrailRecord>,
    marks: Vec<u32>,
}

impl Trail {
    fn join(&mut self, item: u32, first: u32, second: u32) {
        let mark = &mut self.marks[item as usize];
        if *mark == NONE {
            *mark = self.records.len() as u32;
            self.records.push(TrailRecord {
                item,
                first,
                second,
            });
        }
    }

    /// Takes the entries of the item with this trail number.
    fn work(&mut self, index: &Index, items: u32, number: usize) {
        let item = self.records[number].item;
        let (side, local) = match item {
            item if item < items => (TARGET, item),
            item => (HOST, item - items),
        };
        for entry in index.entries(local) {
            let second = match entry.partner {
                NONE => NONE,
                partner => match self.marks[(side * items + partner) as usize] {
                    NONE => continue,
                    mark => mark,
                },
            };
            let there = if entry.cross {
                lead(entry.lane, side)
            } else {
                side
            };
            self.join(there * items + entry.conclusion, number as u32, second);
        }
    }
}

/// Requests items of a graph, whose words are those of an opening, and settles. An item out of range is refused.
pub fn settle(words: &[u32], requests: &[u32]) -> Result<Vec<TrailRecord>, Refusal> {
    let items = words[..HEAD - 1].iter().sum::<u32>();
    if requests.iter().any(|item| *item >= 2 * items) {
        return Err(Refusal::of_no_record(Reason::Item));
    }
    let rows = words[HEAD..].as_chunks().0;
    let index = Index::of(&rows[..words[HEAD - 1] as usize], items);
    let mut trail = Trail {
        records: Vec::with_capacity(2 * items as usize),
        marks: vec![NONE; 2 * items as usize],
    };
    for item in requests {
        trail.join(*item, NONE, NONE);
    }
    let mut number = 0;
    while number < trail.records.len() {
        trail.work(&index, items, number);
        number += 1;
    }
    Ok(trail.records)
}
