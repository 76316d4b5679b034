//! Words verified, from lists and from streams: the inputs that tell, and the borders of each check.

use super::file::{File, VERIFY, VERIFY_STREAM};
use super::fixed::{mfm, record_of, E2, EXTREME, RECORDS};
use super::hex;
use super::marks::two_seven;
use super::stream_borders::{count_and_stream, listed, Call};
use super::tails::{late, with_value, OLD_E2};
use crate::accept::load;
use crate::record::Record;
use crate::{encode, streams};

/// The recording of 0 1 2 3 three times under the listed record.
pub const LISTED_WORDS: [u8; 13] = [3, 3, 2, 5, 6, 7, 5, 5, 6, 7, 5, 5, 6];

/// The recording of 1 0 1 1 0 0 1 under the (2,7) record.
pub const TWO_SEVEN_WORDS: [u8; 10] = [0, 0, 2, 0, 0, 2, 0, 0, 1, 0];

/// Counts at the limit, beyond it, and such that count × 2 cut to 32 or 64 bits is small.
const COUNTS: [u64; 7] = [1_000_000, 1_000_001, 1 << 31, 1 << 32, 1 << 63, (1 << 63) + 4, u64::MAX];

fn loaded(bytes: &[u8]) -> Record {
    load(bytes).expect("the record is good")
}

/// The record with this tail datum.
fn closing(bytes: &[u8], tail: usize) -> Vec<u8> {
    with_value(&loaded(bytes), tail)
}

/// The words with one changed.
pub fn changed(words: &[u8], place: usize, word: u8) -> Vec<u8> {
    let mut words = words.to_vec();
    words[place] = word;
    words
}

/// A list of words to verify.
pub fn list(record: &[u8], words: &[u8]) -> Call {
    (VERIFY, 0, record.to_vec(), words.to_vec())
}

/// A stream of so many words to verify.
pub fn stream(record: &[u8], count: u64, bytes: &[u8]) -> Call {
    (VERIFY_STREAM, 0, record.to_vec(), count_and_stream(count, bytes))
}

/// The same list as a stream. The record is good and the words are below 2^q.
pub fn as_stream((_, _, record, words): &Call) -> Call {
    stream(record, words.len() as u64, &streams::pack(loaded(record).q, words))
}

/// The lists that tell under the listed record, one of them under the record that closes with 3.
fn under_listed() -> Vec<Call> {
    let (l, w) = (listed(), LISTED_WORDS);
    let mut calls = vec![list(&l, &w), list(&l, &changed(&w, 5, 0)), list(&l, &changed(&w, 4, 2))];
    calls.extend([7, 5, 3, 0].map(|last| list(&l, &changed(&w, 12, last))));
    calls.push(list(&l, &w[..12]));
    calls.extend((0..8).map(|word| list(&l, &[word])));
    calls.extend([list(&closing(&l, 3), &w), list(&l, &[])]);
    calls.extend([&[3, 8][..], &[9], &[2, 5], &[2, 5, 0]].map(|words| list(&l, words)));
    calls
}

/// The lists that tell under the (2,7) record, one of them under the record that closes with 1.
fn under_two_seven() -> Vec<Call> {
    let (a, v) = (two_seven(), TWO_SEVEN_WORDS);
    let mut calls = vec![list(&a, &v), list(&closing(&a, 1), &v)];
    calls.extend([9, 8, 7, 6].map(|length| list(&a, &v[..length])));
    calls.extend([&[0, 2, 0][..], &[0, 0, 0], &[0, 9], &[1, 0, 0, 0], &[1, 0, 0, 0, 0]].map(|words| list(&a, words)));
    calls
}

/// The inputs that tell.
pub fn telling() -> Vec<Call> {
    let (e2, l, a) = (hex(E2), listed(), two_seven());
    let mut calls: Vec<Call> =
        [&[2, 2, 3, 2][..], &[2, 3, 3, 2], &[], &[2, 2, 4, 2]].map(|words| list(&e2, words)).into();
    calls.extend(under_listed().into_iter().chain(under_two_seven()));
    calls.extend([list(&l[..4], &[]), list(&[&[0xa6], &l[1..]].concat(), &[255])]);
    let (w, v) = (hex("6d 5d ed de dc"), hex("08 20 40"));
    calls.extend([stream(&l, 13, &w), stream(&l, 13, &hex("6d 5c 2d de dc")), stream(&l, 12, &w)]);
    calls.extend([12, 13].map(|count| stream(&l, count, &w[..4])));
    calls.extend([stream(&l, 0, &[]), stream(&l, 1_000_001, &w)]);
    calls.extend([stream(&a, 10, &v), stream(&a, 9, &v), stream(&a, 2, &[0])]);
    calls
}

pub fn add(file: &mut File) {
    telling().iter().for_each(|call| put(file, call));
    streams_that_tell(file);
    short_lists(file);
    few_words(file);
    bad_words(file);
    wrong_streams(file);
    refused_records(file);
    large_records(file);
    long_lists(file);
}

pub fn put(file: &mut File, (kind, room, first, second): &Call) {
    file.add(*kind, *room, first, second);
}

/// The lists that tell as streams, where the record is good and no word is too large.
fn streams_that_tell(file: &mut File) {
    let words_fit = |record: &Record, words: &[u8]| words.iter().all(|word| usize::from(*word) < 1 << record.q);
    for call in telling().iter().filter(|call| call.0 == VERIFY) {
        if load(&call.2).is_ok_and(|record| words_fit(&record, &call.3)) {
            put(file, &as_stream(call));
        }
    }
}

/// All lists of two words under E2, every second one as a stream, and all one-word streams under E8.
fn short_lists(file: &mut File) {
    for number in 0..16 {
        let call = list(&hex(E2), &[number >> 2, number & 3]);
        put(file, &if number % 2 == 0 { call } else { as_stream(&call) });
    }
    (0..4).for_each(|word| put(file, &stream(&mfm(), 1, &[word << 6])));
}

/// No words, one fewer than a, and exactly a: those that closing gives from state 0, and those with the last changed.
fn few_words(file: &mut File) {
    let grown = Record { a: 2, ..loaded(&hex(E2)) }.pack();
    for bytes in [mfm(), grown.clone(), closing(&grown, 1), closing(&listed(), 2), closing(&late().pack(), 15)] {
        let record = loaded(&bytes);
        let closing = encode::words(&record, &[]);
        let mut lists = vec![vec![], closing.clone()];
        if let Some((last, rest)) = closing.split_last() {
            lists.extend([rest.to_vec(), changed(&closing, rest.len(), last ^ 1)]);
        }
        for words in lists {
            put(file, &list(&bytes, &words));
            put(file, &as_stream(&list(&bytes, &words)));
        }
    }
}

/// A word of 2^q or more: first, before the end, among the closing words, twice; words fewer than a come before it, and
/// a word that does not come back does not.
fn bad_words(file: &mut File) {
    let (l, a) = (listed(), two_seven());
    for (place, bad) in [(0, 8), (6, 255), (11, 8), (12, 128)] {
        put(file, &list(&l, &changed(&LISTED_WORDS, place, bad)));
    }
    put(file, &list(&l, &changed(&changed(&LISTED_WORDS, 9, 255), 4, 8)));
    put(file, &list(&l, &[0, 0, 0, 8]));
    for words in [&[4][..], &[255, 255], &[0, 2, 4], &[4, 255, 4], &[3, 3, 3, 4]] {
        put(file, &list(&a, words));
    }
    put(file, &list(&mfm(), &[4]));
    put(file, &list(&late().pack(), &[16]));
}

/// Wrong lengths, fills and counts, with fewer words than a too: 15 before 12.
fn wrong_streams(file: &mut File) {
    let (e2, a) = (hex(E2), two_seven());
    COUNTS.iter().for_each(|count| put(file, &stream(&e2, *count, &[])));
    [1_000_001, (1 << 63) + 4].iter().for_each(|count| put(file, &stream(&a, *count, &[0])));
    for (count, bytes) in [(0, &[0][..]), (1, &[0x01]), (2, &[]), (2, &[0, 0]), (2, &[8]), (3, &[1]), (3, &[0xff, 0])] {
        put(file, &stream(&a, count, bytes));
    }
    let v = hex("08 20 40");
    for bytes in [hex("08 20 41"), hex("08 20 48"), hex("08 20 40 00"), v[..2].to_vec()] {
        put(file, &stream(&a, 10, &bytes));
    }
    [8, 11, 12, 13].iter().for_each(|count| put(file, &stream(&a, *count, &v)));
}

/// The records of the refusal table and the readings, all but one of them refused, and records in the old shape or with
/// a tail datum that is too large: the record's refusal comes before 12, 11 and 15.
fn refused_records(file: &mut File) {
    let records = RECORDS[1..].iter().chain([&OLD_E2]).map(|record| hex(record));
    for record in records.chain([closing(&listed(), 4)]) {
        put(file, &list(&record, &[255, 2]));
        put(file, &stream(&record, 2, &[255]));
    }
    for record in [1, 2, 3, 7].map(|place| hex(RECORDS[place])) {
        put(file, &list(&record, &[]));
        put(file, &stream(&record, 0, &[]));
        put(file, &stream(&record, u64::MAX, &[]));
    }
}

/// Recordings under the record of most states and the one of the widest window, whole and with a word changed.
fn large_records(file: &mut File) {
    for job in &EXTREME[..2] {
        let bytes = record_of(job).expect("the job compiles");
        let blocks: Vec<u8> = (0..20).map(|i| (i % 3 % 2) as u8).collect();
        let words = encode::words(&loaded(&bytes), &blocks);
        put(file, &as_stream(&list(&bytes, &words)));
        put(file, &list(&bytes, &changed(&words, 18, words[18] ^ 1)));
    }
}

/// Recordings of 270 words under E8, which has no word 3: more words come back than a byte counts.
fn long_lists(file: &mut File) {
    let bytes = mfm();
    let blocks: Vec<u8> = (0..270).map(|i| (i * i / 7 % 2) as u8).collect();
    let words = encode::words(&loaded(&bytes), &blocks);
    put(file, &list(&bytes, &changed(&words, 260, 3)));
    put(file, &as_stream(&list(&bytes, &words)));
    put(file, &as_stream(&list(&bytes, &changed(&words, 257, 3))));
}
