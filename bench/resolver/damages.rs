//! The damaged files of docs/refusals.md: changes of the example, and the refusal of each.

use crate::example::EXAMPLE;

/// A change: the bytes from a place up to another give way to these.
type Change = (usize, usize, &'static [u8]);

/// Changes, from the last place to the first; and the number of the refusal, its record and its byte.
type Damage = (&'static [Change], (u32, u32, usize));

/// Records of the example.
const HEADER: &[u8] = EXAMPLE.split_at(8).0;
const DEFAULT: &[u8] = EXAMPLE.split_at(70).0.split_at(52).1;

/// The table.
pub const DAMAGES: [Damage; 43] = [
    (&[(0, 173, b"")], (1, 0, 0)),
    (&[(167, 173, b"")], (1, 11, 167)),
    (&[(172, 173, b"")], (1, 11, 167)),
    (&[(150, 151, b"\x01")], (1, 10, 147)),
    (&[(0, 8, b"")], (2, 0, 0)),
    (&[(0, 0, HEADER)], (2, 1, 8)),
    (&[(8, 19, b"")], (2, 1, 8)),
    (&[(74, 75, b"\x06")], (2, 5, 70)),
    (&[(75, 76, b"\x01")], (2, 5, 70)),
    (&[(167, 168, b"\x01")], (3, 11, 167)),
    (&[(0, 1, b"\x03")], (3, 0, 6)),
    (&[(15, 16, b"\x04")], (3, 1, 15)),
    (&[(15, 16, b"\x02")], (3, 1, 18)),
    (&[(66, 67, b"\x02")], (3, 4, 70)),
    (&[(66, 67, b"\x00")], (3, 4, 67)),
    (&[(173, 173, b"\0"), (167, 168, b"\x03")], (3, 11, 173)),
    (&[(6, 7, b"\x02")], (4, 0, 6)),
    (&[(7, 8, b"\x01")], (4, 0, 6)),
    (&[(14, 15, b"\x02")], (4, 1, 14)),
    (&[(28, 29, b"\x02")], (4, 2, 28)),
    (&[(44, 45, b"\x03")], (4, 3, 44)),
    (&[(46, 47, b"\xFF")], (4, 3, 46)),
    (&[(16, 17, b"\x2D")], (5, 1, 16)),
    (&[(17, 18, b"\x2F")], (5, 1, 17)),
    (&[(87, 88, b"\x2F")], (5, 5, 87)),
    (&[(95, 96, b"\x3F")], (5, 5, 95)),
    (&[(166, 167, b"\x3A")], (5, 10, 166)),
    (&[(67, 70, b"\0"), (52, 53, b"\x0C")], (5, 4, 68)),
    (&[(70, 70, DEFAULT)], (6, 5, 77)),
    (&[(122, 136, STD_TWICE)], (6, 8, 129)),
    (&[(52, 70, IO_TWICE)], (6, 5, 72)),
    (&[(25, 26, b"\x03")], (7, 2, 25)),
    (&[(25, 26, b"\x02")], (7, 5, 90)),
    (&[(69, 70, b"\x70")], (7, 4, 68)),
    (&[(88, 89, b"\x66")], (7, 5, 81)),
    (&[(98, 99, b"\x65")], (7, 5, 90)),
    (&[(166, 167, b"\x75")], (7, 10, 165)),
    (&[(15, 16, b"\x04"), (14, 15, b"\x02")], (4, 1, 14)),
    (&[(16, 17, b"\x2D"), (15, 16, b"\x04")], (3, 1, 15)),
    (&[(70, 70, DEFAULT_OF_TWO)], (6, 5, 77)),
    (&[(6, 7, b"\x02"), (4, 5, b"\x02")], (2, 0, 0)),
    (&[(172, 173, b""), (25, 26, b"\x03")], (1, 11, 167)),
    (&[(153, 154, b"\x03"), (69, 70, b"\x70")], (7, 10, 153)),
];

/// A feature `std` = `std`, a feature `io` = `io`, and `default` with one value and a value count of two.
const STD_TWICE: &[u8] = b"\x0B\0\0\0\x04\0\x03std\x01\x03std";
const IO_TWICE: &[u8] = b"\x09\0\0\0\x04\0\x02io\x01\x02io";
const DEFAULT_OF_TWO: &[u8] = b"\x0E\0\0\0\x04\0\x07default\x02\x02io";

/// The example with these changes.
pub fn damaged(changes: &[Change]) -> Vec<u8> {
    let mut file = EXAMPLE.to_vec();
    for (from, to, bytes) in changes {
        file.splice(from..to, bytes.iter().copied());
    }
    file
}
