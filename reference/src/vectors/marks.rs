//! Request (d), "Two marks": the inputs that tell, decodings that show the marks, and marks as blocks to encode.

use super::damage;
use super::data::FIRST_LISTED;
use super::file::{File, DECODE, DECODE_STREAM, ENCODE, ENCODE_STREAM};
use super::fixed::{mfm, E2};
use super::hex;
use super::pool::{Good, Pool};
use super::random::Random;
use super::stream_borders::{count_and_stream, listed};
use crate::accept::load;
use crate::decode::{self, MARK_AHEAD, MARK_BEFORE};
use crate::record::Record;
use crate::{encode, published, streams};

/// A decoding that tells: the record, the words, and the blocks as told.
pub struct Told {
    pub record: Vec<u8>,
    pub words: Vec<u8>,
    pub blocks: Vec<u8>,
}

pub fn add(file: &mut File, random: &mut Random, pool: &Pool, scale: usize) {
    telling().iter().for_each(|told| add_told(file, told));
    for (m, a) in [(false, false), (false, true), (true, false), (true, true)] {
        let of_class = |good: &&Good| (good.record.m > 0, good.record.a > 0) == (m, a);
        let goods: Vec<&Good> = pool.small.iter().filter(of_class).collect();
        (0..10 * scale).for_each(|_| add_marked(file, random, &goods, false));
        if m {
            (0..10 * scale).for_each(|_| add_marked(file, random, &goods, true));
        }
    }
}

/// The (2,7) code of Adler, Coppersmith and Hassner: m 0, a 3.
pub fn two_seven() -> Vec<u8> {
    published::named("ach-2-7").expect("the code is accepted").pack()
}

/// The inputs that tell, in the order of their table.
pub fn telling() -> Vec<Told> {
    let mut overwritten = encode::words(&load(&listed()).expect("the record is good"), &[0, 1, 2, 3].repeat(3));
    overwritten[5] = 0;
    let rows: [(Vec<u8>, &[u8], &[u8]); 13] = [
        (hex(E2), &[2, 3, 3, 2], &[1, 1, 254, 1]), // E4
        (hex(E2), &[1, 0, 1], &[0, 254, 254]),
        (hex(E2), &[0, 2, 2], &[254, 254, 0]),
        (hex(E2), &[1, 3], &[0, 254]), // word 3 exists, but not from the past set
        (mfm(), &[0, 3, 1], &[0, 254, 1]),
        (hex(FIRST_LISTED), &[3, 5, 0, 5, 3], &[0, 255, 254, 254]),
        (hex(FIRST_LISTED), &[0, 3, 7, 7, 1], &[254, 254, 3, 255]),
        (listed(), &[3, 5, 0, 5, 3], &[0, 255, 254, 2]),
        (listed(), &[2, 2, 2, 2, 2], &[255, 255, 255, 255]),
        (listed(), &[0, 3], &[254]),
        (listed(), &[3, 0], &[255]),
        (two_seven(), &[0, 1, 0, 0, 3, 0, 0, 0], &[0, 255, 255, 255, 254]),
        (listed(), &overwritten, &[0, 1, 2, 3, 255, 254, 2, 3, 0, 1, 2, 3]),
    ];
    let told = |(record, words, blocks): (_, &[u8], &[u8])| Told { record, words: words.into(), blocks: blocks.into() };
    rows.into_iter().map(told).collect()
}

/// The words decoded with the exact room and one byte less, and from their stream; the blocks encoded again, where the
/// first mark is refused with 11.
fn add_told(file: &mut File, told: &Told) {
    let record = load(&told.record).expect("the record is good");
    let count = told.blocks.len() + record.a;
    file.add_exact(DECODE, &told.record, &told.words);
    add_stream(file, &record, &told.words);
    file.add(ENCODE, count, &told.record, &told.blocks);
    file.add(ENCODE_STREAM, streams::length(record.q, count), &told.record, &told.blocks);
}

/// Words decoded from their stream with the exact room.
fn add_stream(file: &mut File, record: &Record, words: &[u8]) {
    let stream = count_and_stream(words.len() as u64, &streams::pack(record.q, words));
    file.add(DECODE_STREAM, words.len() - record.a, &record.pack(), &stream);
}

/// A recording with damage that shows the marks, in the blocks below m if these are asked for, decoded from its words
/// or from its stream.
fn add_marked(file: &mut File, random: &mut Random, goods: &[&Good], early: bool) {
    let mut drawn = || {
        let good = *random.pick(goods);
        (good, damaged(random, &good.record))
    };
    let shown = (0..1000).map(|_| drawn()).find(|(good, words)| shows_marks(&good.record, words, early));
    let (good, words) = shown.expect("some damage shows the marks");
    if random.once_in(2) {
        add_stream(file, &good.record, &words);
    } else {
        file.add(DECODE, words.len() - good.record.a, &good.bytes, &words);
    }
}

/// A short recording with damage.
fn damaged(random: &mut Random, record: &Record) -> Vec<u8> {
    let count = random.within(4, 14);
    let recording = encode::words(record, &random.bytes(count, 1 << record.p));
    damage::words(random, &recording, record.q)
}

/// The decoded blocks, or those below m, have 254 among them and, unless a is 0, also 255.
fn shows_marks(record: &Record, words: &[u8], early: bool) -> bool {
    if words.len() < record.a {
        return false;
    }
    let mut blocks = decode::blocks(record, words);
    if early {
        blocks.truncate(record.m);
    }
    blocks.contains(&MARK_BEFORE) && (record.a == 0 || blocks.contains(&MARK_AHEAD))
}
