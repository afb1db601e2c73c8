//! Measures the proved library beside a plain resolver, on the same graphs, in one process: times and their ratios,
//! how they grow, what opening costs for the smallest graph, and how much stack it takes.
//!
//! The arguments are those of `Options`.

mod boundary;
mod checks;
mod clock;
mod costs;
mod damages;
mod example;
mod files;
mod memory;
mod opening;
mod plain;
mod settling;
mod stack;
mod timing;

use opening::Words;
use std::path::{Path, PathBuf};
use std::time::Duration;

/// The words of the largest graph, and the items of the largest on both sides.
const WORDS: usize = plain::HEAD + plain::WIDTH * 262_144;
const ITEMS: usize = 73_728;

/// The stack of all threads in which the resolvers run.
const STACK: usize = 16 << 20;

/// What is measured: the graphs of a folder. `--limit SECONDS` leaves out those that the library does not open in that
/// time, and `--settle ROWS` says how many rule rows a graph that is settled may have.
struct Options {
    folder: PathBuf,
    limit: Duration,
    most_settled: usize,
}

/// How the program is called.
const USAGE: &str = "bench FOLDER [--limit SECONDS] [--settle ROWS]";

impl Options {
    fn read(mut words: impl Iterator<Item = String>) -> Options {
        let mut options = Options {
            folder: words.next().expect(USAGE).into(),
            limit: Duration::from_secs(10),
            most_settled: 10_000,
        };
        while let Some(word) = words.next() {
            let value = words.next().expect(USAGE);
            match &*word {
                "--limit" => options.limit = Duration::from_secs_f64(value.parse().expect(USAGE)),
                "--settle" => options.most_settled = value.parse().expect(USAGE),
                _ => panic!("{USAGE}"),
            }
        }
        options
    }
}

/// Checks both resolvers, and prints what is measured.
fn run(options: &Options) {
    let graphs = files::read(&options.folder);
    checks::check(&graphs);
    let mut words = Words::new();
    costs::print_fixed_cost(&mut words);
    let all = opening::print_times(&graphs, &mut words, options.limit);
    opening::print_growth(&all);
    costs::print_stack(&all, &mut words);
    settling::print_times(&all, &mut words, options.most_settled);
}

/// Opens a file by the library, and no more.
fn open_once(path: &Path) {
    let file = std::fs::read(path).expect("the file can be read");
    boundary::open(&file, &mut vec![0; WORDS]);
}

fn main() {
    let mut words = std::env::args().skip(1).peekable();
    if words.next_if(|word| word == "--open").is_some() {
        let path = PathBuf::from(words.next().expect(USAGE));
        return timing::in_thread(STACK, || open_once(&path));
    }
    let options = Options::read(words);
    memory::keep();
    timing::in_thread(STACK, || run(&options));
}
