//! Request (b), "Recordings as the head sees them": packing and unpacking against the words of the request, each
//! undoing the other, and the claim about overwritten channel bits.

use reference::accept::load;
use reference::calls::{compile_job, compile_joined, compile_run_length, decode, decode_stream, encode, encode_stream};
use reference::calls::{pack, reach, unpack};
use reference::record::Record;
use reference::streams::BlockNumber;
use reference::vectors::fixed::{mfm, EXTREME, TELLING};
use reference::vectors::jobs::{compiling_run_length, general};
use reference::vectors::random::Random;
use reference::vectors::stream_borders::listed;
use reference::vectors::{damage, foreign, hex};

/// Room enough for every result here.
const ROOM: usize = 4096;

/// Channel bit n of a stream: eight to the byte, first bit highest.
fn bit(stream: &[u8], n: usize) -> u8 {
    stream[n / 8] >> (7 - n % 8) & 1
}

/// Channel bit n of words: bit n mod q of word n / q, first bit most significant; 0 past the last word.
fn word_bit(q: usize, words: &[u8], n: usize) -> u8 {
    words.get(n / q).map_or(0, |word| word >> (q - 1 - n % q) & 1)
}

#[test]
fn a_stream_has_the_bits_of_its_words() {
    let mut random = Random::seeded(31);
    for (q, count) in (1..=8).flat_map(|q| (0..40).map(move |count| (q, count))) {
        let words = random.bytes(count, 1 << q);
        let stream = pack(q as u64, &words, ROOM).output;
        assert!(stream.len() * 8 >= count * q && stream.len() * 8 < count * q + 8);
        assert!((0..stream.len() * 8).all(|n| bit(&stream, n) == word_bit(q, &words, n)));
    }
}

#[test]
fn each_undoes_the_other() {
    let mut random = Random::seeded(32);
    for (q, _) in (1..=8).flat_map(|q| (0..200).map(move |round| (q, round))) {
        let count = random.below(100);
        let words = random.bytes(count, 1 << q);
        let stream = pack(q, &words, ROOM);
        assert_eq!(unpack(q, count as u64, &stream.output, count).output, words);
        let mut other = random.bytes(stream.output.len(), 256);
        if let Some(last) = other.last_mut() {
            *last &= 255 << (stream.output.len() * 8 - count * q as usize);
        }
        let words = unpack(q, count as u64, &other, count);
        assert_eq!((words.refusal, words.value as usize), (0, count));
        assert!(words.output.iter().all(|word| usize::from(*word) < 1 << q));
        assert_eq!(pack(q, &words.output, ROOM).output, other);
    }
}

/// A stream is good for exactly one length of bytes and only with its fill 0.
#[test]
fn only_good_streams_are_unpacked() {
    for (q, count) in (1..=8).flat_map(|q| (0..20).map(move |count| (q, count))) {
        let length = usize::div_ceil(count * q, 8);
        for other in 0..24 {
            let answer = unpack(q as u64, count as u64, &vec![0; other], ROOM);
            assert_eq!(answer.refusal, if other == length { 0 } else { 15 });
        }
        for place in 0..length * 8 {
            let stream = damage::with_field(&vec![0; length], (place, 1), 1);
            let answer = unpack(q as u64, count as u64, &stream, ROOM);
            assert_eq!(answer.refusal, if place < count * q { 0 } else { 15 });
        }
    }
}

/// Records of every kind: printed, compiled from all three kinds of job, and foreign, some with a wider window.
fn records(random: &mut Random) -> Vec<Record> {
    let mut packed = vec![listed(), mfm(), compile_run_length(&[0, 1, 1, 2, 1], ROOM).output];
    packed.extend(EXTREME[..3].iter().map(|job| compile_run_length(job, ROOM).output));
    packed.extend(TELLING.map(|job| compile_joined(&hex(job), ROOM).output));
    packed.extend([3, 8, 17, 31, 32].map(|length| foreign::ring(length).pack()));
    for _ in 0..60 {
        packed.push(compiling_run_length(random).1);
        packed.push(compile_job(&general(random), ROOM).output);
        packed.push(foreign::any(random).pack());
        let mut wider = foreign::any(random);
        wider.m = random.within(wider.m, 15);
        wider.a = random.within(wider.a, 15);
        packed.push(wider.pack());
    }
    packed.iter().filter_map(|bytes| load(bytes).ok()).collect()
}

#[test]
fn streams_of_recordings() {
    let mut random = Random::seeded(33);
    for record in records(&mut random) {
        let (bytes, q) = (record.pack(), record.q as u64);
        let count = random.below(40);
        let blocks = random.bytes(count, 1 << record.p);
        let words = encode(&bytes, &blocks, ROOM).output;
        let stream = encode_stream(&bytes, &blocks, ROOM).output;
        assert_eq!(stream, pack(q, &words, ROOM).output);
        assert_eq!(decode_stream(&bytes, words.len() as u64, &stream, count).output, blocks);
        let others = random.bytes(words.len(), 1 << q);
        let stream = pack(q, &others, ROOM).output;
        assert_eq!(decode_stream(&bytes, others.len() as u64, &stream, ROOM), decode(&bytes, &others, ROOM));
    }
}

/// "Overwriting channel bits f to l": the blocks outside the reach come out as written, and both ends of the reach
/// are met by some damage.
#[test]
fn damage_stays_within_its_reach() {
    let mut random = Random::seeded(34);
    let (mut ranges, mut changed, mut at_first, mut at_last) = (0, 0, 0, 0);
    for record in records(&mut random) {
        let bytes = record.pack();
        for _ in 0..30 {
            let blocks = random.bytes(50, 1 << record.p);
            let stream = encode_stream(&bytes, &blocks, ROOM).output;
            let bits = (50 + record.a) * record.q;
            let f = random.below(bits);
            let l = (f + random.below(4 * record.q)).min(bits - 1);
            let damaged = damage::bits(&mut random, &stream, f, l);
            let read = decode_stream(&bytes, (50 + record.a) as u64, &damaged, 50);
            assert_eq!((read.refusal, read.value), (0, 50), "11 cannot come");
            let (BlockNumber(first), BlockNumber(last)) = reach(&bytes, f as u64, l as u64).unwrap();
            for i in (0..50).filter(|i| read.output[*i] != blocks[*i]) {
                let i = i as u64;
                assert!(first <= i && i <= last, "block {i}, bits {f} to {l}: {record:?}");
                changed += 1;
                at_first += usize::from(i == first && first > 0);
                at_last += usize::from(i == last);
            }
            ranges += 1;
        }
    }
    assert!(ranges > 4000 && changed > ranges, "{ranges} {changed}");
    assert!(at_first > 200 && at_last > 200, "{at_first} {at_last}");
}

/// Bits past the last word are fill: overwriting them is no damage to words but 15.
#[test]
fn overwritten_fill_is_refused() {
    let mut random = Random::seeded(35);
    for record in records(&mut random) {
        let bytes = record.pack();
        let blocks = random.bytes(9, 1 << record.p);
        let stream = encode_stream(&bytes, &blocks, ROOM).output;
        let count = 9 + record.a;
        for place in count * record.q..stream.len() * 8 {
            let damaged = damage::with_field(&stream, (place, 1), 1);
            assert_eq!(decode_stream(&bytes, count as u64, &damaged, ROOM).refusal, 15);
        }
    }
}
