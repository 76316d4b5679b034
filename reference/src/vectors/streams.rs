//! Streams (request (b)): random packings and unpackings, and recordings as streams, whole and damaged.

use super::coding::any_room;
use super::damage;
use super::file::{File, DECODE_STREAM, ENCODE_STREAM, PACK, UNPACK};
use super::pool::{Good, Pool};
use super::random::Random;
use super::stream_borders::{self, count_and_stream, width_and_count};
use crate::{encode, streams};

/// A way to add a case under a record.
pub type Way = fn(&mut File, &mut Random, &Good);

pub fn add(file: &mut File, random: &mut Random, pool: &Pool, scale: usize) {
    stream_borders::add(file);
    for q in (1..=8).cycle().take(8 * 6 * scale) {
        packing(file, random, q);
        unpacking(file, random, q);
    }
    let ways: [(usize, Way); 3] = [(90, encoding), (170, decoding), (70, refused)];
    for (count, way) in ways {
        file.rounds(count * scale, |file| {
            let good = any(random, pool);
            way(file, random, good);
        });
    }
}

/// A record, nearly always a small one; one that has no closing words is drawn anew, but only once.
fn any<'a>(random: &mut Random, pool: &'a Pool) -> &'a Good {
    let mut one = || if random.once_in(16) { random.pick(&pool.middle) } else { random.pick(&pool.small) };
    let drawn = one();
    if drawn.record.a > 0 {
        drawn
    } else {
        one()
    }
}

/// A number of words or blocks: few, or once in a while many.
fn some(random: &mut Random) -> usize {
    let most = if random.once_in(12) { 60 } else { 14 };
    random.below(most)
}

/// Words packed, and the stream unpacked again.
fn packing(file: &mut File, random: &mut Random, q: usize) {
    let count = some(random);
    let words = random.bytes(count, 1 << q);
    let stream = streams::pack(q, &words);
    file.add(PACK, any_room(random, stream.len()), &[q as u8], &words);
    file.add(UNPACK, any_room(random, count), &width_and_count(q as u8, count as u64), &stream);
}

/// Any bytes with a count for which their length is right, or one that is one more or less; the last byte mostly ends
/// in zeros.
fn unpacking(file: &mut File, random: &mut Random, q: usize) {
    let count = random.within(1, 20);
    let mut stream = random.bytes(streams::length(q, count), 256);
    if !random.once_in(4) {
        let zeros = random.below(8);
        *stream.last_mut().expect("there is a word") &= 255 << zeros;
    }
    let count = if random.once_in(4) { random.within(count - 1, count + 1) } else { count };
    file.add(UNPACK, any_room(random, count), &width_and_count(q as u8, count as u64), &stream);
}

/// Blocks encoded to a stream.
pub fn encoding(file: &mut File, random: &mut Random, good: &Good) {
    let count = some(random);
    let blocks = random.bytes(count, 1 << good.record.p);
    let length = streams::length(good.record.q, count + good.record.a);
    file.add(ENCODE_STREAM, any_room(random, length), &good.bytes, &blocks);
}

/// A recording decoded from its stream: mostly after channel bits f to l are overwritten, else whole, or with words
/// taken out and put in.
pub fn decoding(file: &mut File, random: &mut Random, good: &Good) {
    let (p, q, a) = (good.record.p, good.record.q, good.record.a);
    let count = some(random);
    let mut words = encode::words(&good.record, &random.bytes(count, 1 << p));
    let way = random.below(8);
    if way == 0 {
        words = damage::words(random, &words, q);
    }
    let mut stream = streams::pack(q, &words);
    if way > 1 && !words.is_empty() {
        let f = random.below(words.len() * q);
        let l = (f + random.below(3 * q)).min(last_bit(random, words.len() * q));
        stream = damage::bits(random, &stream, f, l);
    }
    let room = any_room(random, words.len().saturating_sub(a));
    file.add(DECODE_STREAM, room, &good.bytes, &count_and_stream(words.len() as u64, &stream));
}

/// The last of so many channel bits; once in a while the last bit of the fill.
fn last_bit(random: &mut Random, bits: usize) -> usize {
    if random.once_in(6) {
        bits.next_multiple_of(8) - 1
    } else {
        bits - 1
    }
}

/// Calls with a bad block, too few words, a wrong count, length or fill, too little room, or a damaged record, often
/// several at once.
pub fn refused(file: &mut File, random: &mut Random, good: &Good) {
    let (p, q, a) = (good.record.p, good.record.q, good.record.a);
    let mut bytes = good.bytes.clone();
    if random.once_in(4) {
        let place = random.below(bytes.len());
        bytes[place] ^= 1 << random.below(8);
    }
    let count = if random.once_in(2) { random.below(a + 1) } else { random.below(a + 6) };
    if random.once_in(3) {
        let mut blocks = random.bytes(count, 1 << p);
        (0..random.below(3)).for_each(|_| blocks.push(random.within(1 << p, 255) as u8));
        let room = random.below(streams::length(q, blocks.len() + a) + 2);
        file.add(ENCODE_STREAM, room, &bytes, &blocks);
        return;
    }
    let mut stream = streams::pack(q, &random.bytes(count, 1 << q));
    let mut count = count as u64;
    match random.below(6) {
        0 => stream.push(0),
        1 => drop(stream.pop()),
        2 => count = count.wrapping_sub(1),
        3 => count += 1,
        4 => stream.iter_mut().for_each(|byte| *byte |= 1),
        _ => {}
    }
    file.add(DECODE_STREAM, random.below(8), &bytes, &count_and_stream(count, &stream));
}
