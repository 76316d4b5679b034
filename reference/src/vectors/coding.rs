//! Encodings, and decodings of whole, damaged, shortened and lengthened recordings.

use super::damage;
use super::file::{File, DECODE, ENCODE};
use super::pool::{Good, Pool};
use super::random::Random;
use crate::encode;
use std::collections::HashSet;

pub fn add(file: &mut File, random: &mut Random, pool: &Pool, scale: usize) {
    file.rounds(407 * scale, |file| {
        let good = pool.any(random);
        encoding(file, random, good);
    });
    decodings(file, random, pool, scale);
    file.rounds(326 * scale, |file| {
        let good = pool.any(random);
        refused(file, random, good);
    });
    long_recordings(file, random, pool);
}

/// Decodings, of those under records of over 3,000 bytes the first eight only.
fn decodings(file: &mut File, random: &mut Random, pool: &Pool, scale: usize) {
    let mut long = 0;
    file.rounds(950 * scale, |file| {
        let good = pool.any(random);
        let (room, words) = decoding(random, good);
        long += usize::from(good.bytes.len() > 3000);
        if good.bytes.len() <= 3000 || long <= 8 * scale {
            file.add(DECODE, room, &good.bytes, &words);
        }
    });
}

/// Long recordings under large records, of those of one length the first only.
fn long_recordings(file: &mut File, random: &mut Random, pool: &Pool) {
    let mut lengths = HashSet::new();
    for good in pool.large.iter().take(8) {
        let blocks = random.bytes(200, 1 << good.record.p);
        let words = encode::words(&good.record, &blocks);
        let damaged = damage::words(random, &words, good.record.q);
        if lengths.insert(good.bytes.len()) {
            file.add(ENCODE, words.len(), &good.bytes, &blocks);
            file.add(DECODE, blocks.len(), &good.bytes, &damaged);
        }
    }
}

/// Data blocks: few, or once in a while many.
fn blocks(random: &mut Random, good: &Good) -> Vec<u8> {
    let most = if random.once_in(10) { 100 } else { 24 };
    let count = random.below(most);
    random.bytes(count, 1 << good.record.p)
}

/// Blocks encoded with the exact room, more, or one byte less.
pub fn encoding(file: &mut File, random: &mut Random, good: &Good) {
    let blocks = blocks(random, good);
    let length = blocks.len() + good.record.a;
    file.add(ENCODE, any_room(random, length), &good.bytes, &blocks);
}

/// Mostly the exact room, else a little more, none, or one byte less.
pub fn any_room(random: &mut Random, length: usize) -> usize {
    match random.below(12) {
        0 => length.saturating_sub(1),
        1 => length + random.within(1, 9),
        2 => random.below(length + 1),
        _ => length,
    }
}

/// The room and the words of a recording to decode, mostly after damage; or words that are no recording at all.
pub fn decoding(random: &mut Random, good: &Good) -> (usize, Vec<u8>) {
    let (a, q) = (good.record.a, good.record.q);
    let recording = encode::words(&good.record, &blocks(random, good));
    let words = match random.below(8) {
        0 => recording,
        1 => random.bytes(recording.len(), 1 << q),
        _ => damage::words(random, &recording, q),
    };
    (any_room(random, words.len().saturating_sub(a)), words)
}

/// Calls with a bad byte, too few words, too little room, or a damaged record, often several at once.
pub fn refused(file: &mut File, random: &mut Random, good: &Good) {
    let (p, q, a) = (good.record.p, good.record.q, good.record.a);
    let encodes = random.once_in(2);
    let bits = if encodes { p } else { q };
    let count = if random.once_in(3) { random.below(a + 2) } else { random.below(14) };
    let mut list = random.bytes(count, 1 << bits);
    for _ in 0..random.below(3) {
        if count > 0 && bits < 8 {
            list[random.below(count)] = random.within(1 << bits, 255) as u8;
        }
    }
    let mut bytes = good.bytes.clone();
    if random.once_in(6) {
        let place = random.below(bytes.len());
        bytes[place] ^= 1 << random.below(8);
    }
    let length = if encodes { count + a } else { count.saturating_sub(a) };
    let kind = if encodes { ENCODE } else { DECODE };
    file.add(kind, any_room(random, length), &bytes, &list);
}
