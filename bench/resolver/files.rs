//! Graph files in a folder, as `bench/make_graphs.py` writes them.

use std::path::{Path, PathBuf};

/// A graph file: of which kind it is, how large, and what it is the worst case of.
pub struct GraphFile {
    pub kind: String,
    pub size: usize,
    pub what: String,
    pub path: PathBuf,
    pub bytes: Vec<u8>,
}

/// The graphs that the list in a folder names, in its order.
pub fn read(folder: &Path) -> Vec<GraphFile> {
    let list = folder.join("list.txt");
    let lines = std::fs::read_to_string(&list)
        .unwrap_or_else(|fault| panic!("{}: {fault}", list.display()));
    lines.lines().map(|line| graph(folder, line)).collect()
}

/// The graph of a line: its file, kind and size, and then what it is, with tabs between.
fn graph(folder: &Path, line: &str) -> GraphFile {
    let [file, kind, size, what] = line.split('\t').collect::<Vec<_>>()[..] else {
        panic!("a line of the list has other parts: {line}");
    };
    let path = folder.join(file);
    GraphFile {
        kind: kind.to_string(),
        size: size.parse().expect("the size is a number"),
        what: what.to_string(),
        bytes: std::fs::read(&path).unwrap_or_else(|fault| panic!("{}: {fault}", path.display())),
        path,
    }
}
