//! Settling under host-split, by the library and by the plain resolver.

use crate::opening::{Measured, Words};
use crate::plain::{self, HEAD};
use crate::timing::by_turns;
use crate::{ITEMS, boundary};

/// Settles each graph of which these words are, with the unit of the first package and the first feature requested,
/// once both have given the same trail.
fn print_graph(measured: &Measured<'_>, words: &Words, active: &mut [u32]) {
    let head = &words.library[..HEAD];
    let requests = [0, head[0] + head[1]];
    let trail = plain::settle(&words.library, &requests).expect("the requests are items");
    let count = boundary::settle(&words.library, &requests, active).expect("the library settles");
    let items = trail.iter().map(|record| &record.item);
    assert!(active[..count].iter().eq(items), "the active items differ");
    let times = by_turns(
        || boundary::settle(&words.library, &requests, active),
        || plain::settle(&words.library, &requests),
    );
    let [library, plain] = [times.library, times.plain].map(|time| time.as_secs_f64() * 1e6);
    println!(
        "| {} | {} | {} | {count} | {library:.0} | {plain:.0} | {:.2} | {} |",
        measured.graph.kind, measured.graph.size, head[3], times.ratio, times.runs,
    );
}

/// Times settling for all graphs with a unit and a feature, and with at most so many rows.
pub fn print_times(all: &[Measured<'_>], words: &mut Words, most: usize) {
    println!("\n## Settling\n");
    println!("| Graph | Size | Rows | Active items | Library, µs | Plain, µs | Ratio | Runs |");
    println!("|---|---|---|---|---|---|---|---|");
    let mut active = vec![0; ITEMS];
    for measured in all
        .iter()
        .filter(|measured| measured.rows.is_some_and(|rows| rows <= most))
    {
        boundary::open(&measured.graph.bytes, &mut words.library);
        if words.library[0] > 0 && words.library[2] > 0 {
            print_graph(measured, words, &mut active);
        }
    }
}
