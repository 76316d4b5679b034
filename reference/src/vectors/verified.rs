//! Words verified at random: recordings whole, damaged, cut, lengthened, under another record, and words that are no
//! recording; calls with several faults at once.

use super::damage;
use super::file::File;
use super::pool::{Good, Pool};
use super::random::Random;
use super::tailed;
use super::verifying::{as_stream, list, put, stream};
use crate::record::Record;
use crate::{decode, encode, streams};

/// A list of words to verify under a record, made of a recording under it.
type Way = fn(&mut Random, &Record, Vec<u8>) -> Vec<u8>;

/// Every way: whole, one word changed, an early one, one of the last, a word lost, one added, cut, lengthened, more
/// than one of these, the recording of another tail datum, a recording up to some word, and any words.
const WAYS: [Way; 12] = [
    |_, _, words| words,
    |random, record, words| one_changed(random, record, words, 0),
    |random, record, mut words| {
        let rest = words.split_off(words.len().min(3));
        [one_changed(random, record, words, 0), rest].concat()
    },
    |random, record, words| {
        let last = words.len().saturating_sub(record.a + 1);
        one_changed(random, record, words, last)
    },
    |random, _, mut words| {
        (!words.is_empty()).then(|| words.remove(random.below(words.len())));
        words
    },
    |random, record, mut words| {
        words.insert(random.below(words.len() + 1), any_word(random, record));
        words
    },
    |random, _, mut words| {
        words.truncate(random.below(words.len() + 1));
        words
    },
    |random, record, words| {
        let count = random.within(1, 3);
        [words, random.bytes(count, 1 << record.q)].concat()
    },
    |random, record, words| damage::words(random, &words, record.q),
    |random, record, words| {
        let other = Record { tail: random.below(1 << record.p), ..record.clone() };
        encode::words(&other, &random.bytes(words.len().saturating_sub(record.a), 1 << record.p))
    },
    |random, record, mut words| {
        words.truncate(random.below(words.len() + 1));
        let count = random.within(1, 5);
        [words, random.bytes(count, 1 << record.q)].concat()
    },
    |random, record, words| random.bytes(words.len(), 1 << record.q),
];

pub fn add(file: &mut File, random: &mut Random, pool: &Pool, scale: usize) {
    for (round, way) in (0..6 * scale).flat_map(|round| WAYS.iter().map(move |way| (round, way))) {
        let good = any(random, pool);
        let words = recording(random, &good.record);
        let call = list(&good.bytes, &way(random, &good.record, words));
        put(file, &if round % 2 == 1 { as_stream(&call) } else { call });
    }
    for round in 0..12 * scale {
        marked(file, random, pool, round);
    }
    for _ in 0..12 * scale {
        under_another(file, random, pool);
    }
    for _ in 0..12 * scale {
        faults(file, random, pool);
    }
}

/// A small record; every second one has a tail datum other than 0.
fn any(random: &mut Random, pool: &Pool) -> Good {
    let drawn = tailed::any(random, pool);
    if random.once_in(2) && drawn.bytes.len() <= 64 {
        return drawn;
    }
    random.pick(&pool.small).clone()
}

/// A short recording.
fn recording(random: &mut Random, record: &Record) -> Vec<u8> {
    let count = random.below(13);
    encode::words(record, &random.bytes(count, 1 << record.p))
}

fn any_word(random: &mut Random, record: &Record) -> u8 {
    random.below(1 << record.q) as u8
}

/// One word from this place on changed to another, if there is one.
fn one_changed(random: &mut Random, record: &Record, mut words: Vec<u8>, first: usize) -> Vec<u8> {
    if first < words.len() {
        let place = random.within(first, words.len() - 1);
        let n = 1 << record.q;
        words[place] = ((usize::from(words[place]) + random.within(1, n - 1)) % n) as u8;
    }
    words
}

/// A recording with a word changed such that a mark ends the encoding, though 0 or the tail datum in its place would
/// give the word back.
fn marked(file: &mut File, random: &mut Random, pool: &Pool, round: usize) {
    let mut drawn = || {
        let good = any(random, pool);
        let words = recording(random, &good.record);
        let words = one_changed(random, &good.record, words, 0);
        (good, words)
    };
    let ends = |(good, words): &(Good, Vec<u8>)| {
        let datum = if round % 4 < 2 { 0 } else { good.record.tail };
        ends_at_mark(&good.record, words, datum as u8)
    };
    let shown = (0..10_000).map(|_| drawn()).find(ends);
    let (good, words) = shown.expect("some damage shows a mark");
    let call = list(&good.bytes, &words);
    put(file, &if round % 2 == 1 { as_stream(&call) } else { call });
}

/// The words up to the first mark come back if this datum stands in place of the mark.
fn ends_at_mark(record: &Record, words: &[u8], datum: u8) -> bool {
    let blocks = decode::blocks(record, words);
    let mark = blocks.iter().position(|block| *block >= decode::MARK_BEFORE);
    mark.is_some_and(|mark| {
        let again = encode::words(record, &[&blocks[..mark], &[datum]].concat());
        again[..=mark] == words[..=mark]
    })
}

/// A recording under one record verified under another, as a list and as the stream that it is.
fn under_another(file: &mut File, random: &mut Random, pool: &Pool) {
    let (written, read) = (any(random, pool), any(random, pool));
    let words = recording(random, &written.record);
    put(file, &list(&read.bytes, &words));
    let bytes = streams::pack(written.record.q, &words);
    let count = if random.once_in(3) { words.len() } else { bytes.len() * 8 / read.record.q };
    put(file, &stream(&read.bytes, count as u64, &bytes));
}

/// A list and a stream with a bad word, too few words, a wrong count, length or fill, or a damaged record, often with
/// several of these at once.
fn faults(file: &mut File, random: &mut Random, pool: &Pool) {
    let good = any(random, pool);
    let (q, a) = (good.record.q, good.record.a);
    let mut bytes = good.bytes;
    if random.once_in(4) {
        let place = random.below(bytes.len());
        bytes[place] ^= 1 << random.below(8);
    }
    let most = if random.once_in(2) { a + 1 } else { a + 5 };
    let count = random.within(0, most);
    let mut words = random.bytes(count, 1 << q);
    let mut filled = streams::pack(q, &words);
    if count > 0 && q < 8 {
        words[random.below(count)] = random.within(1 << q, 255) as u8;
    }
    put(file, &list(&bytes, &words));
    let mut count = count as u64;
    match random.below(6) {
        0 => filled.push(0),
        1 => drop(filled.pop()),
        2 => count = count.wrapping_sub(1),
        3 => count += 1,
        4 => filled.iter_mut().for_each(|byte| *byte |= 1),
        _ => {}
    }
    put(file, &stream(&bytes, count, &filled));
}
