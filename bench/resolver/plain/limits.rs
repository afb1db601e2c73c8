//! The limits of docs/graph-file.md.

pub const MAX_BYTES: usize = 1_048_576;
pub const MAX_PACKAGES: usize = 4_096;
pub const MAX_DEPENDENCIES: usize = 16_384;
pub const MAX_FEATURES: usize = 16_384;
pub const MAX_ROWS: u64 = 262_144;
