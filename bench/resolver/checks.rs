//! What is checked before anything is timed: that the plain resolver gives the answers of the pages, and the library
//! the same as far as its two calls tell them.

use crate::damages::{DAMAGES, damaged};
use crate::example::{EXAMPLE, REQUESTS, TRAIL, WORDS};
use crate::plain::{self, Reason};
use crate::{boundary, files::GraphFile};

/// How many damaged files are opened by both resolvers.
const DAMAGED_FILES: u32 = 2_000;

/// Checks both resolvers. The graphs are those that damaged files are made of, the small ones among them.
pub fn check(graphs: &[GraphFile]) {
    check_example();
    check_damages();
    let small = graphs.iter().filter(|graph| graph.bytes.len() < 50_000);
    let small: Vec<&[u8]> = small.map(|graph| &*graph.bytes).collect();
    let mut dice = Dice(0x9e37_79b9_7f4a_7c15);
    let mut words = (vec![0; 100_000], vec![0; 100_000]);
    for number in 0..DAMAGED_FILES as usize {
        let file = small.get(number % (small.len() + 1)).unwrap_or(&EXAMPLE);
        let file = damage(file, &mut dice);
        let plain = plain::open(&file, &mut words.0)
            .ok()
            .map(|opened| opened.rows as usize);
        assert_eq!(
            boundary::open(&file, &mut words.1),
            plain,
            "a damaged file is opened by one alone"
        );
        assert!(words.0 == words.1, "the words of a damaged file differ");
    }
}

/// The example: its words, the trail of a session, and what is refused for want of memory and as no item.
fn check_example() {
    let (mut library, mut plain) = ([7; 55], [7; 55]);
    assert_eq!(boundary::open(EXAMPLE, &mut library), Some(10));
    let opened = plain::open(EXAMPLE, &mut plain).expect("the example is accepted");
    assert_eq!(
        (opened.read, opened.packages, opened.dependencies),
        (173, 3, 3)
    );
    assert_eq!((opened.features, opened.rows), (4, 10));
    assert_eq!((&plain[..54], plain[54]), (&WORDS[..], 7));
    assert_eq!(library, plain);
    let refused = plain::open(EXAMPLE, &mut plain[..53]).expect_err("53 words are too few");
    assert_eq!(
        (refused.reason, refused.record, refused.byte),
        (Reason::Memory, 0, 0)
    );
    assert_eq!(boundary::open(EXAMPLE, &mut library[..53]), None);

    let trail = plain::settle(&WORDS, &REQUESTS).expect("the requests are items");
    let records = trail
        .iter()
        .map(|record| (record.item, record.first, record.second));
    assert!(records.eq(TRAIL), "{trail:?}");
    let mut active = [0; 20];
    let count = boundary::settle(&WORDS, &REQUESTS, &mut active).expect("the example is settled");
    assert!(
        active[..count]
            .iter()
            .eq(trail.iter().map(|record| &record.item))
    );
    assert!(plain::settle(&WORDS, &[0, 20]).is_err_and(|refusal| refusal.reason == Reason::Item));
    assert_eq!(boundary::settle(&WORDS, &[0, 20], &mut active), None);
}

/// The table of damaged files.
fn check_damages() {
    let mut words = [0; 100];
    for (changes, refusal) in DAMAGES {
        let file = damaged(changes);
        let refused = plain::open(&file, &mut words).expect_err("a damaged file is refused");
        let answer = (refused.reason as u32, refused.record, refused.byte);
        assert_eq!(answer, refusal, "{changes:?}");
        assert_eq!(boundary::open(&file, &mut words), None, "{changes:?}");
    }
    assert_eq!(words, [0; 100]);
}

/// Numbers that look random, and are the same in each run.
struct Dice(u64);

impl Dice {
    fn throw(&mut self, below: usize) -> usize {
        self.0 ^= self.0 << 13;
        self.0 ^= self.0 >> 7;
        self.0 ^= self.0 << 17;
        (self.0 % below as u64) as usize
    }
}

/// A file with up to three bytes changed, most of them to one that stands elsewhere in the file.
fn damage(file: &[u8], dice: &mut Dice) -> Vec<u8> {
    let mut damaged = file.to_vec();
    for _ in 0..dice.throw(4) {
        let place = dice.throw(file.len());
        damaged[place] = match dice.throw(4) {
            0 => dice.throw(256) as u8,
            1 => damaged[place] ^ 1,
            _ => file[dice.throw(file.len())],
        };
    }
    damaged
}
