//! A resolver in plain Rust, written from the pages in docs/ and not from the library. It gives the answers of the
//! pages: refusals with their record and byte, the graph words, and the trail of a session.
//!
//! A file is parsed once, into flat arrays in which names are numbers. Each reference is looked up once, in hash
//! tables, before anything is written. Settling goes from an item straight to its rows, by an index.

mod decoding;
mod fields;
mod graph;
mod groups;
mod limits;
mod linking;
mod names;
mod refusals;
mod rows;
mod settling;
mod strings;
mod tables;

pub use refusals::{Reason, Refusal};
pub use settling::settle;

use limits::{MAX_BYTES, MAX_ROWS};

/// The words before the rows, and the words of a row.
pub const HEAD: usize = 4;
pub const WIDTH: usize = 5;

/// What an accepted opening answers: the bytes read, and the counts.
#[derive(Clone, Copy, PartialEq, Eq, Debug)]
pub struct Opened {
    pub read: usize,
    pub packages: u32,
    pub dependencies: u32,
    pub features: u32,
    pub rows: u32,
}

/// Opens a graph file into the words; a refusal leaves them as they were.
pub fn open(file: &[u8], words: &mut [u32]) -> Result<Opened, Refusal> {
    if file.len() > MAX_BYTES {
        return Err(Refusal::of_no_record(Reason::Many));
    }
    let (mut graph, read) = decoding::decode(file)?;
    let links = linking::link(&mut graph, file)?;
    if links.rows > MAX_ROWS {
        return Err(Refusal::of_no_record(Reason::Many));
    }
    let opened = Opened {
        read,
        packages: graph.packages.len() as u32,
        dependencies: graph.dependencies.len() as u32,
        features: graph.features.len() as u32,
        rows: links.rows as u32,
    };
    let words = words.get_mut(..HEAD + WIDTH * links.rows as usize);
    let Some((head, rows)) = words.and_then(|words| words.split_first_chunk_mut::<HEAD>()) else {
        return Err(Refusal::of_no_record(Reason::Memory));
    };
    *head = [
        opened.packages,
        opened.dependencies,
        opened.features,
        opened.rows,
    ];
    rows::Writer::new(&graph, &links, rows).write();
    Ok(opened)
}
