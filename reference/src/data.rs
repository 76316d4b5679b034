//! Request (c), "One word, one datum where it can be": which datum each edge of a table carries.

use crate::table::{Entry, Table};

/// The table with its data given anew. "State 0 stays. In each later state, in order, an edge first takes the lowest
/// datum still free there that the lowest earlier state with its word gave that word; edges with no such datum then
/// take the free data, rising."
///
/// The table has its rows in order of word, then target, and is renumbered ("this is done after renumbering"). No state
/// is earlier than state 0, so that all of its edges take the free data, rising: it stays.
pub fn given(table: &Table) -> Table {
    let mut rows = Vec::with_capacity(table.states());
    for edges in &table.rows {
        let row = row(&rows, edges);
        rows.push(row);
    }
    Table { rows }
}

/// The entries of one state in order of their data, in two passes (the readings). The earlier states have the data
/// newly given to them.
fn row(earlier: &[Vec<Entry>], edges: &[Entry]) -> Vec<Entry> {
    let mut taken = vec![None; edges.len()];
    let mut others = Vec::new();
    for edge in edges {
        let free = |datum: &usize| taken[*datum].is_none();
        match data_of(earlier, edge.word).into_iter().find(free) {
            Some(datum) => taken[datum] = Some(*edge),
            None => others.push(*edge),
        }
    }
    let mut others = others.into_iter();
    taken.into_iter().filter_map(|edge| edge.or_else(|| others.next())).collect()
}

/// The data, rising, that the lowest earlier state with this word gave it; no other state is asked (the readings).
fn data_of(earlier: &[Vec<Entry>], word: u8) -> Vec<usize> {
    let data = |row: &Vec<Entry>| (0..row.len()).filter(|datum| row[*datum].word == word).collect::<Vec<_>>();
    earlier.iter().map(data).find(|data| !data.is_empty()).unwrap_or_default()
}
