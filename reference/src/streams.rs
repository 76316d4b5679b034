//! Request (b), "Recordings as the head sees them": words as a stream of channel bits, words from a stream, and how
//! far damage to channel bits reaches.

use crate::answer::{Refusal, STREAM};
use crate::record::Record;

/// "The word count, at most 1,000,000."
pub const MOST_WORDS: u64 = 1_000_000;

/// A block number: it counts data.
#[derive(Clone, Copy, Debug, PartialEq, Eq, PartialOrd, Ord)]
pub struct BlockNumber(pub u64);

/// A bit number: it counts channel bits.
#[derive(Clone, Copy, Debug, PartialEq, Eq, PartialOrd, Ord)]
pub struct BitNumber(pub u64);

/// q if it is 1 to 8.
pub fn width(q: u64) -> Option<usize> {
    (1..=8).contains(&q).then_some(q as usize)
}

/// A count of words that is not over the limit, else refusal 15.
pub fn within_limit(count: u64) -> Result<usize, Refusal> {
    if count > MOST_WORDS {
        return Err(STREAM);
    }
    Ok(count as usize)
}

/// The bytes that so many words take: "count × q / 8 rounded up". The count is not over the limit.
pub fn length(q: usize, count: usize) -> usize {
    (count * q).div_ceil(8)
}

/// The place of the first word that is not below 2^q.
pub fn first_bad(q: usize, words: &[u8]) -> Option<usize> {
    words.iter().position(|word| usize::from(*word) >= 1 << q)
}

/// The stream of words below 2^q: their bits, "eight to the byte, first bit highest, last byte filled with 0".
pub fn pack(q: usize, words: &[u8]) -> Vec<u8> {
    let mut bits = Vec::new();
    words.iter().for_each(|word| bits.extend(low_bits(q, *word)));
    while bits.len() % 8 != 0 {
        bits.push(0);
    }
    bits.chunks(8).map(number).collect()
}

/// The words of a stream that passed `check` with this count.
pub fn unpack(q: usize, count: usize, stream: &[u8]) -> Vec<u8> {
    bits(stream)[..count * q].chunks(q).map(number).collect()
}

/// Refusal 15 for "a word count over the limit, a byte length other than count × q / 8 rounded up, or a fill that is
/// not 0"; else the count. The limit comes first, so that count × q is formed of a small count only.
pub fn check(q: usize, count: u64, stream: &[u8]) -> Result<usize, Refusal> {
    let count = within_limit(count)?;
    if stream.len() != length(q, count) {
        return Err(STREAM);
    }
    if bits(stream)[count * q..].contains(&1) {
        return Err(STREAM);
    }
    Ok(count)
}

/// The first and the last block that can differ from the data written when channel bits f to l are overwritten:
/// "blocks f / q − a (0 if negative) to l / q + m, quotients rounded down". Refusal 15 for a last bit that no stream
/// within the limit has; nothing is asked of the first bit, and the formula stands where it comes after the last.
pub fn reach(record: &Record, f: BitNumber, l: BitNumber) -> Result<(BlockNumber, BlockNumber), Refusal> {
    let [q, m, a] = [record.q, record.m, record.a].map(|field| field as u64);
    if l.0 >= MOST_WORDS * q {
        return Err(STREAM);
    }
    Ok((BlockNumber((f.0 / q).saturating_sub(a)), BlockNumber(l.0 / q + m)))
}

/// All bits of a stream, first bit highest in its byte.
fn bits(stream: &[u8]) -> Vec<u8> {
    let mut bits = Vec::new();
    stream.iter().for_each(|byte| bits.extend(low_bits(8, *byte)));
    bits
}

/// The low `width` bits of a number, the most significant first.
fn low_bits(width: usize, number: u8) -> impl Iterator<Item = u8> {
    (0..width).rev().map(move |place| number >> place & 1)
}

/// The number of up to eight bits, the most significant first.
fn number(bits: &[u8]) -> u8 {
    bits.iter().fold(0, |number, bit| number << 1 | bit)
}
