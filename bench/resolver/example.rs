//! The example of docs/graph-file.md: a file of 173 bytes in 12 records.

/// Its bytes.
pub const EXAMPLE: &[u8] = b"\
    \x04\0\0\0\x01\0\x01\0\
    \x07\0\0\0\x02\0\0\x03app\
    \x0D\0\0\0\x03\0\x01\0\0\x01\0\x04core\0\
    \x0C\0\0\0\x03\0\x02\0\x01\0\x01\x03gen\0\
    \x0E\0\0\0\x04\0\x07default\x01\x02io\
    \x19\0\0\0\x04\0\x02io\x02\x08dep:core\x09core?/std\
    \x08\0\0\0\x02\0\0\x04core\
    \x07\0\0\0\x04\0\x03std\0\
    \x0A\0\0\0\x04\0\x02rt\x01\x03std\
    \x07\0\0\0\x02\0\0\x03gen\
    \x10\0\0\0\x03\0\x01\0\0\0\0\x04core\x01\x02rt\
    \x02\0\0\0\x05\0";

const NONE: u32 = u32::MAX;

/// Its words, by docs/rule-rows.md.
pub const WORDS: [u32; 54] = [
    3, 3, 4, 10, //
    3, NONE, 1, 0, 1, //
    0, NONE, 4, 1, 0, //
    4, NONE, 2, 1, 1, //
    6, NONE, 7, 6, 0, //
    7, NONE, 3, 0, 0, //
    7, 3, 8, 0, 1, //
    9, NONE, 8, 6, 0, //
    2, NONE, 5, 0, 0, //
    5, NONE, 1, 0, 1, //
    5, NONE, 9, 0, 1,
];

/// The items that docs/sessions.md requests of it, and its trail then: items and their causes.
pub const REQUESTS: [u32; 2] = [0, 6];
pub const TRAIL: [(u32, u32, u32); 12] = [
    (0, NONE, NONE),
    (6, NONE, NONE),
    (4, 0, NONE),
    (7, 1, NONE),
    (12, 2, NONE),
    (3, 3, NONE),
    (8, 3, 5),
    (15, 4, NONE),
    (1, 5, NONE),
    (11, 7, NONE),
    (19, 7, NONE),
    (18, 10, NONE),
];
