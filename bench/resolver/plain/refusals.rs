//! Why a graph file is refused, as docs/refusals.md has it.

/// The refusals of opening, and that of a request, by their numbers.
#[derive(Clone, Copy, PartialEq, Eq, Debug)]
pub enum Reason {
    Cut = 1,
    Stray,
    Ragged,
    Mark,
    Name,
    Twice,
    Unknown,
    Many,
    Memory,
    Item,
}

/// A refusal: its reason, the number of the record at fault, and the byte that is shown to users. Both are 0 where it
/// is about no record.
#[derive(Clone, Copy, PartialEq, Eq, Debug)]
pub struct Refusal {
    pub reason: Reason,
    pub record: u32,
    pub byte: usize,
}

impl Refusal {
    /// A refusal that is about no record.
    pub fn of_no_record(reason: Reason) -> Refusal {
        Refusal {
            reason,
            record: 0,
            byte: 0,
        }
    }
}
