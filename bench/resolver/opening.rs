//! Opening, by the library and by the plain resolver.

use crate::files::GraphFile;
use crate::timing::{Times, by_turns};
use crate::{WORDS, boundary, plain};
use std::process::Command;
use std::time::{Duration, Instant};

/// The words that the two resolvers write to.
pub struct Words {
    pub library: Vec<u32>,
    pub plain: Vec<u32>,
}

impl Words {
    /// Words for every graph.
    pub fn new() -> Words {
        Words {
            library: vec![0; WORDS],
            plain: vec![0; WORDS],
        }
    }
}

/// A time as a number of microseconds.
pub fn microseconds(time: Duration) -> f64 {
    time.as_secs_f64() * 1e6
}

/// Whether the library opens a file within the limit. It is tried by this program in a process of its own, since a
/// call cannot be ended.
fn is_in_time(graph: &GraphFile, limit: Duration) -> bool {
    let program = std::env::current_exe().expect("this program has a path");
    let child = Command::new(program).arg("--open").arg(&graph.path).spawn();
    let (mut child, begin) = (child.expect("this program can be started"), Instant::now());
    while begin.elapsed() < limit {
        if let Some(status) = child.try_wait().expect("the process can be asked") {
            assert!(
                status.success(),
                "{}: the library did not return",
                graph.path.display()
            );
            return true;
        }
        std::thread::sleep(Duration::from_millis(2));
    }
    child
        .kill()
        .and_then(|()| child.wait())
        .expect("the process can be ended");
    false
}

/// A graph that both resolvers were timed with. `rows` are those of its answer, if it is accepted.
pub struct Measured<'a> {
    pub graph: &'a GraphFile,
    pub rows: Option<usize>,
    pub times: Times,
}

/// Times the opening of a graph, once both have given the same answer and words. None if the library takes longer
/// than the limit.
fn measure<'a>(graph: &'a GraphFile, words: &mut Words, limit: Duration) -> Option<Measured<'a>> {
    if !is_in_time(graph, limit) {
        return None;
    }
    let rows = plain::open(&graph.bytes, &mut words.plain)
        .ok()
        .map(|opened| opened.rows as usize);
    assert_eq!(
        boundary::open(&graph.bytes, &mut words.library),
        rows,
        "{}",
        graph.kind
    );
    let written = rows.map_or(0, |rows| plain::HEAD + plain::WIDTH * rows);
    assert!(
        words.library[..written] == words.plain[..written],
        "the words differ"
    );
    let times = by_turns(
        || boundary::open(&graph.bytes, &mut words.library),
        || plain::open(&graph.bytes, &mut words.plain),
    );
    Some(Measured { graph, rows, times })
}

/// The answer of the plain resolver in a few words.
fn answer(graph: &GraphFile, words: &mut Words) -> String {
    match plain::open(&graph.bytes, &mut words.plain) {
        Ok(opened) => opened.rows.to_string(),
        Err(refusal) => format!("{:?}, record {}", refusal.reason, refusal.record),
    }
}

/// Times the opening of all graphs that the library opens within the limit.
pub fn print_times<'a>(
    graphs: &'a [GraphFile],
    words: &mut Words,
    limit: Duration,
) -> Vec<Measured<'a>> {
    println!("\n## Opening\n");
    println!(
        "| Graph | Size | Bytes | Rows, or refusal | Library, µs | Plain, µs | Ratio | Runs |"
    );
    println!("|---|---|---|---|---|---|---|---|");
    let mut all = Vec::new();
    for graph in graphs {
        let (kind, size, bytes) = (&graph.kind, graph.size, graph.bytes.len());
        let begin = format!("| {kind} | {size} | {bytes} |");
        let answer = answer(graph, words);
        let Some(measured) = measure(graph, words, limit) else {
            let plain = by_turns(|| (), || plain::open(&graph.bytes, &mut words.plain)).plain;
            let plain = microseconds(plain);
            println!("{begin} {answer} | left out: more than {limit:?} | {plain:.0} | | |");
            continue;
        };
        let Times { ratio, runs, .. } = measured.times;
        let [library, plain] = [measured.times.library, measured.times.plain].map(microseconds);
        println!("{begin} {answer} | {library:.0} | {plain:.0} | {ratio:.2} | {runs} |");
        all.push(measured);
    }
    print_kinds(graphs);
    all
}

/// What each kind of graph is the worst case of.
fn print_kinds(graphs: &[GraphFile]) {
    println!();
    for kind in graphs.chunk_by(|graph, next| graph.kind == next.kind) {
        println!("- {}: {}", kind[0].kind, kind[0].what);
    }
}

/// How bytes and times grow from each size of a kind to the next, if both are accepted or both refused.
pub fn print_growth(all: &[Measured<'_>]) {
    println!("\n## How it grows\n");
    println!("| Graph | Sizes | Bytes: times | Library: times | Plain: times |");
    println!("|---|---|---|---|---|");
    for pair in all.windows(2) {
        let [less, more] = pair else { continue };
        if less.graph.kind != more.graph.kind || less.rows.is_some() != more.rows.is_some() {
            continue;
        }
        let bytes = more.graph.bytes.len() as f64 / less.graph.bytes.len() as f64;
        let library = more.times.library.div_duration_f64(less.times.library);
        let plain = more.times.plain.div_duration_f64(less.times.plain);
        let (kind, sizes) = (&less.graph.kind, [less.graph.size, more.graph.size]);
        println!(
            "| {kind} | {} to {} | {bytes:.1} | {library:.1} | {plain:.1} |",
            sizes[0], sizes[1]
        );
    }
}
