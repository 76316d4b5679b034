//! How far words are a recording: they are decoded, the decoded blocks are encoded again, and the words in front that
//! come back are counted. All of them come back exactly if the words are a recording.

use crate::encode;
use crate::record::Record;

/// How many of the words in front come back when the blocks decoded from them are encoded again.
pub fn given_back(record: &Record, words: &[u8], blocks: &[u8]) -> usize {
    let again = encoded_again(record, blocks);
    words.iter().zip(&again).take_while(|(given, back)| given == back).count()
}

/// Decoded blocks encoded again: their recording, closing words included. A mark is no datum and ends the encoding: if
/// there is one, the words of the blocks before the first, and no closing words.
pub fn encoded_again(record: &Record, blocks: &[u8]) -> Vec<u8> {
    let Some(mark) = encode::first_bad(record, blocks) else {
        return encode::words(record, blocks);
    };
    let mut words = encode::words(record, &blocks[..mark]);
    words.truncate(mark);
    words
}
