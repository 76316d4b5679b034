//! Streams (request (b)): the inputs that tell, and the borders of each check.

use super::damage::with_field;
use super::file::{File, DECODE_STREAM, ENCODE_STREAM, PACK, UNPACK};
use super::fixed::{mfm, record_of, E2, LISTED, RECORDS};
use super::foreign;
use super::hex;
use crate::accept::load;
use crate::streams;

/// A case without its answer: kind, room, input 1 and input 2.
pub type Call = (u8, usize, Vec<u8>, Vec<u8>);

/// Room enough for the inputs that tell.
const PLENTY: usize = 64;

/// Packings that tell: q, the words, the room.
const PACKINGS: [(u8, &str, usize); 5] =
    [(3, "01 02 03", PLENTY), (0, "", PLENTY), (9, "01", 0), (3, "08", 0), (3, "07 08", 1)];

/// Unpackings that tell: q, the count, the bytes, the room.
const UNPACKINGS: [(u8, u64, &str, usize); 7] = [
    (3, 3, "29 80", PLENTY),
    (3, 3, "29 81", PLENTY),
    (3, 2, "29 80", PLENTY),
    (3, 4, "29 80", 0),
    (3, 0, "", PLENTY),
    (3, 0, "00", PLENTY),
    (8, 1_000_001, "", PLENTY),
];

/// Decodings under the listed record that tell: the count and the stream.
const DECODINGS: [(u64, &str); 5] = [(0, ""), (0, "00"), (1, "60"), (1, "61"), (1, "60 00")];

/// Counts at the limit, beyond it, and beyond 32 and 63 bits.
const COUNTS: [u64; 5] = [1_000_000, 1_000_001, 1 << 32, 1 << 63, u64::MAX];

/// Counts over the limit with q and the bytes that a length cut to 32 or 64 bits, or their sum with 7, would want.
const WRAPPED: [(u8, u64, usize); 12] = [
    (1, u64::MAX, 0),
    (1, (1 << 32) + 8, 1),
    (2, 1 << 31, 0),
    (2, 1 << 63, 0),
    (2, (1 << 63) + 4, 1),
    (3, 0x5555_5555_5555_5556, 1),
    (4, 1 << 62, 0),
    (5, 0x3333_3333_3333_3334, 1),
    (7, (1 << 32) + 1, 1),
    (8, 1 << 29, 0),
    (8, 1 << 61, 0),
    (8, (1 << 61) + 2, 2),
];

/// A job of words of four bits.
const WIDE: [u8; 5] = [0, 2, 3, 4, 2];

/// Input 1 of an unpacking: q, then the count.
pub fn width_and_count(q: u8, count: u64) -> Vec<u8> {
    [&[q][..], &count.to_be_bytes()].concat()
}

/// Input 2 of a decoding: the count, then the stream.
pub fn count_and_stream(count: u64, stream: &[u8]) -> Vec<u8> {
    [&count.to_be_bytes()[..], stream].concat()
}

/// The listed record.
pub fn listed() -> Vec<u8> {
    record_of(&LISTED).expect("the listed job compiles")
}

/// The words (5 i + 3) mod 2^q for i 0 to 8.
pub fn nine(q: usize) -> Vec<u8> {
    (0..9).map(|i| ((5 * i + 3) % (1 << q)) as u8).collect()
}

/// The inputs that tell and are short enough for the file.
pub fn telling() -> Vec<Call> {
    let packing = |&(q, words, room): &(u8, &str, usize)| (PACK, room, vec![q], hex(words));
    let unpacking =
        |&(q, count, stream, room): &(u8, u64, &str, usize)| (UNPACK, room, width_and_count(q, count), hex(stream));
    let decoding =
        |&(count, stream): &(u64, &str)| (DECODE_STREAM, PLENTY, listed(), count_and_stream(count, &hex(stream)));
    let mut calls: Vec<Call> = PACKINGS.iter().map(packing).collect();
    calls.extend(UNPACKINGS.iter().map(unpacking));
    for q in 1..=8 {
        calls.push((PACK, PLENTY, vec![q as u8], nine(q)));
        calls.push((UNPACK, PLENTY, width_and_count(q as u8, 9), streams::pack(q, &nine(q))));
    }
    calls.push((ENCODE_STREAM, PLENTY, listed(), vec![]));
    calls.extend(DECODINGS.iter().map(decoding));
    calls
}

pub fn add(file: &mut File) {
    telling().iter().for_each(|(kind, room, first, second)| drop(file.add(*kind, *room, first, second)));
    (1..=8).for_each(|q| nine_words(file, q));
    (1..=7).for_each(|q| bad_words(file, q));
    widths_out_of_range(file);
    large_counts(file);
    let wide = record_of(&WIDE).expect("the wide job compiles");
    for record in [hex(E2), listed(), mfm(), wide, foreign::ring(32).pack()] {
        encodings(file, &record);
        decodings(file, &record);
    }
    [1, 3, 7, 2].iter().for_each(|place| bad_record(file, &hex(RECORDS[*place])));
}

/// The stream with each of its fill bits set in turn.
fn with_fill(bits: usize, stream: &[u8]) -> impl Iterator<Item = Vec<u8>> + '_ {
    (bits..stream.len() * 8).map(move |place| with_field(stream, (place, 1), 1))
}

/// The nine words both ways, with the exact room and one byte less; then each fill bit set in turn, a length one byte
/// less and more, and the counts 0, 8 and 10, with room and with none: 15 before 13, but where the fill holds a tenth
/// word.
fn nine_words(file: &mut File, q: usize) {
    let (width, words) = (q as u8, nine(q));
    let stream = streams::pack(q, &words);
    file.add_exact(PACK, &[width], &words);
    file.add_exact(UNPACK, &width_and_count(width, 9), &stream);
    file.add(UNPACK, 0, &width_and_count(width, 9), &stream);
    for filled in with_fill(9 * q, &stream) {
        file.add(UNPACK, 9, &width_and_count(width, 9), &filled);
    }
    for room in [0, 10] {
        for length in [&stream[..stream.len() - 1], &[&stream[..], &[0]].concat()] {
            file.add(UNPACK, room, &width_and_count(width, 9), length);
        }
        for count in [0, 8, 10] {
            file.add(UNPACK, room, &width_and_count(width, count), &stream);
        }
    }
}

/// Words that are not below 2^q: the first place is answered, and 13 comes before.
fn bad_words(file: &mut File, q: usize) {
    let words = nine(q);
    for (place, bad) in [(0, 1 << q), (4, 255), (8, 1 << q)] {
        let mut words = words.clone();
        words[place] = bad;
        words[8] = words[8].max(bad);
        file.add(PACK, streams::length(q, 9), &[q as u8], &words);
        file.add(PACK, streams::length(q, 9) - 1, &[q as u8], &words);
    }
}

/// q 0, 9 and 255: 1 before 15, 13 and 11.
fn widths_out_of_range(file: &mut File) {
    for q in [0, 9, 255] {
        for (words, room) in [(&[][..], 0), (&[1], 4), (&[255, 255], 0)] {
            file.add(PACK, room, &[q], words);
        }
        for (count, stream, room) in [(0, &[][..], 0), (1, &[0x80], 4), (3, &[1], 0), (u64::MAX, &[], 0)] {
            file.add(UNPACK, room, &width_and_count(q, count), stream);
        }
    }
}

/// Counts that no stream here is long enough for, in unpacking and in decoding: 15 before 13.
fn large_counts(file: &mut File) {
    let counts = (1..=8).flat_map(|q| COUNTS.map(|count| (q, count, usize::from(q % 2))));
    for (q, count, length) in counts.chain(WRAPPED) {
        file.add(UNPACK, 0, &width_and_count(q, count), &vec![0; length]);
    }
    for (record, q) in [(hex(E2), 2), (listed(), 3)] {
        let wrapped = WRAPPED.into_iter().filter(|wrapped| wrapped.0 == q);
        let counts = COUNTS.map(|count| (q, count, 0)).into_iter().chain(wrapped);
        for (_, count, length) in counts {
            file.add(DECODE_STREAM, 0, &record, &count_and_stream(count, &vec![0; length]));
        }
    }
}

/// Few blocks, good and bad, with the exact room, one byte less and none: 13 before 11.
fn encodings(file: &mut File, record: &[u8]) {
    let loaded = load(record).expect("the record is good");
    for blocks in [&[][..], &[1, 0, 1, 1], &[1, 0, 1, 4], &[255; 3]] {
        let length = streams::length(loaded.q, blocks.len() + loaded.a);
        for room in [length, length.saturating_sub(1), 0] {
            file.add(ENCODE_STREAM, room, record, blocks);
        }
    }
}

/// Counts about a with streams of 0 bits: 12 below a, with no room too; each fill bit set, and lengths one byte more
/// and less, for counts below a too: 15 before 12 and before 13.
fn decodings(file: &mut File, record: &[u8]) {
    let loaded = load(record).expect("the record is good");
    for count in [0, loaded.a / 2, loaded.a.saturating_sub(1), loaded.a, loaded.a + 1, loaded.a + 3] {
        let stream = vec![0; streams::length(loaded.q, count)];
        let mut add = |room: usize, stream: &[u8]| {
            file.add(DECODE_STREAM, room, record, &count_and_stream(count as u64, stream));
        };
        [0, count.saturating_sub(loaded.a)].iter().for_each(|room| add(*room, &stream));
        with_fill(count * loaded.q, &stream).for_each(|filled| add(0, &filled));
        add(0, &[&stream[..], &[0]].concat());
        add(count, &stream[..stream.len().saturating_sub(1)]);
    }
}

/// A record that is refused: before 11, 12, 13 and 15.
fn bad_record(file: &mut File, record: &[u8]) {
    for (blocks, room) in [(&[][..], 0), (&[1, 0], 0), (&[255], 64)] {
        file.add(ENCODE_STREAM, room, record, blocks);
    }
    for (count, stream) in [(0, &[][..]), (4, &[0xaa]), (0, &[0]), (1, &[255]), (u64::MAX, &[])] {
        file.add(DECODE_STREAM, 0, record, &count_and_stream(count, stream));
    }
}
