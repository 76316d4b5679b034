//! "Compiling", step 4: the table, with rising data in each state. Request (c) then gives the data anew.

use crate::component::Graph;

/// The most states of a table.
pub const MOST_TABLE_STATES: usize = 128;

/// One entry of a table.
#[derive(Clone, Copy, Debug, PartialEq, Eq)]
pub struct Entry {
    pub word: u8,
    pub next: usize,
}

/// A table: for each state, the entry of each datum in order. State 0 starts.
#[derive(Clone, Debug, PartialEq, Eq)]
pub struct Table {
    pub rows: Vec<Vec<Entry>>,
}

impl Table {
    /// Each state keeps its first n edges in order of word, then target; they carry data 0 to n - 1. States not
    /// reachable from the start by kept edges are removed, the others renumbered in order.
    pub fn of(graph: &Graph, n: usize) -> Table {
        let keep = |edges: &Vec<(u8, usize)>| edges.iter().take(n).map(|(word, next)| entry(*word, *next)).collect();
        let rows: Vec<Vec<Entry>> = graph.edges.iter().map(keep).collect();
        let reached = reached_from_start(&rows);
        let number = |s: usize| reached[..s].iter().filter(|seen| **seen).count();
        let renumber = |row: &Vec<Entry>| row.iter().map(|e| entry(e.word, number(e.next))).collect();
        let left = (0..rows.len()).filter(|s| reached[*s]);
        Table { rows: left.map(|s| renumber(&rows[s])).collect() }
    }

    /// The number of states.
    pub fn states(&self) -> usize {
        self.rows.len()
    }
}

fn entry(word: u8, next: usize) -> Entry {
    Entry { word, next }
}

/// Which states are reachable from state 0.
fn reached_from_start(rows: &[Vec<Entry>]) -> Vec<bool> {
    let mut seen = vec![false; rows.len()];
    let mut open = vec![0];
    seen[0] = true;
    while let Some(s) = open.pop() {
        for e in &rows[s] {
            if !seen[e.next] {
                seen[e.next] = true;
                open.push(e.next);
            }
        }
    }
    seen
}
