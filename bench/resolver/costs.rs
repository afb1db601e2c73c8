//! What opening costs for any file: the time for the example, and the stack.

use crate::example::EXAMPLE;
use crate::opening::{Measured, Words, microseconds};
use crate::timing::{Times, by_turns, in_fresh_threads};
use crate::{STACK, boundary, plain, stack};
use std::time::Duration;

/// Times the example, in this thread and in new ones.
pub fn print_fixed_cost(words: &mut Words) {
    println!("\n## The example\n");
    println!("| Thread | Library, µs | Plain, µs | Ratio |\n|---|---|---|---|");
    let line = |thread, times: Times| {
        let (library, plain) = (microseconds(times.library), microseconds(times.plain));
        println!(
            "| {thread} | {library:.1} | {plain:.1} | {:.1} |",
            times.ratio
        );
    };
    let warm = by_turns(
        || boundary::open(EXAMPLE, &mut words.library),
        || plain::open(EXAMPLE, &mut words.plain),
    );
    line("warm", warm);
    let fresh = in_fresh_threads(
        STACK,
        || boundary::open(EXAMPLE, &mut [0; 54]),
        || plain::open(EXAMPLE, &mut [0; 54]),
    );
    line("fresh", fresh);
}

/// How much stack opening takes: for the example, and for the largest graph of each kind that is opened in a second.
pub fn print_stack(all: &[Measured<'_>], words: &mut Words) {
    println!("\n## Stack\n");
    println!("| Graph | Size | Library, bytes | Plain, bytes |\n|---|---|---|---|");
    let mut line = |kind: &str, size: usize, file: &[u8]| {
        let library = stack::used(STACK, &mut || {
            boundary::open(file, &mut words.library);
        });
        let plain = stack::used(STACK, &mut || {
            let _ = plain::open(file, &mut words.plain);
        });
        println!("| {kind} | {size} | {library} | {plain} |");
    };
    line("example", 1, EXAMPLE);
    let quick = |measured: &&Measured| measured.times.library < Duration::from_secs(1);
    let all: Vec<&Measured> = all.iter().filter(quick).collect();
    for kind in all.chunk_by(|measured, next| measured.graph.kind == next.graph.kind) {
        let graph = kind[kind.len() - 1].graph;
        line(&graph.kind, graph.size, &graph.bytes);
    }
}
