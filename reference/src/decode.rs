//! "Recording and decoding": the reading rule, with the two marks of request (d).

use crate::edges::{members, Edges, Out, Set};
use crate::record::Record;

/// "If the past set is empty, or no edge from it has word i."
pub const MARK_BEFORE: u8 = 254;

/// "If such edges exist but none of their targets can read the words ahead."
pub const MARK_AHEAD: u8 = 255;

/// The blocks of W words, W - a of them. There are at least a words, all below 2^q.
pub fn blocks(record: &Record, words: &[u8]) -> Vec<u8> {
    let edges = Edges::of(&record.table);
    (0..words.len() - record.a).map(|i| block(record, &edges, words, i)).collect()
}

/// Block i: the datum of the edges from the past set with word i whose target can read the next a words, or a mark.
fn block(record: &Record, edges: &Edges, words: &[u8], i: usize) -> u8 {
    let having = with_word(edges, past_set(record, edges, words, i), words[i]);
    if having.is_empty() {
        return MARK_BEFORE;
    }
    let ahead = readers(edges, &words[i + 1..i + 1 + record.a]);
    let fits = having.iter().find(|edge| ahead >> edge.next & 1 == 1);
    fits.map_or(MARK_AHEAD, |edge| edge.datum as u8)
}

/// The states reachable by words i - m to i - 1 from any state, or by words 0 to i - 1 from state 0 if i < m.
fn past_set(record: &Record, edges: &Edges, words: &[u8], i: usize) -> Set {
    let (from, first) = if i < record.m { (1, 0) } else { (edges.all(), i - record.m) };
    words[first..i].iter().fold(from, |set, word| edges.word(*word).map_or(0, |word| edges.after(set, word)))
}

/// The edges from a set with this word; none if the set is empty.
fn with_word(edges: &Edges, from: Set, word: u8) -> Vec<Out> {
    let has = |edge: &&Out| edges.word(word) == Some(edge.word);
    members(from).flat_map(|s| &edges.out[s]).filter(has).copied().collect()
}

/// The states that can read these words.
fn readers(edges: &Edges, words: &[u8]) -> Set {
    let before = |set, word: &u8| edges.word(*word).map_or(0, |word| edges.before(set, word));
    words.iter().rev().fold(edges.all(), before)
}

/// The place of the first word that is not below 2^q. All words are asked, the last a included.
pub fn first_bad(record: &Record, words: &[u8]) -> Option<usize> {
    words.iter().position(|word| usize::from(*word) >= 1 << record.q)
}
