//! "Recording and decoding": recording, closed with the tail datum of request (e).

use crate::record::Record;

/// The words of data blocks: the blocks from state 0, then a blocks of the record's tail datum. "Encoding closes with
/// the stated datum, and what counts as a recording follows it."
pub fn words(record: &Record, blocks: &[u8]) -> Vec<u8> {
    let mut state = 0;
    let mut words = Vec::with_capacity(blocks.len() + record.a);
    let closing = vec![record.tail; record.a];
    for datum in blocks.iter().map(|block| usize::from(*block)).chain(closing) {
        let entry = record.table.rows[state][datum];
        words.push(entry.word);
        state = entry.next;
    }
    words
}

/// The place of the first block that is not below 2^p.
pub fn first_bad(record: &Record, blocks: &[u8]) -> Option<usize> {
    blocks.iter().position(|block| usize::from(*block) >= 1 << record.p)
}
