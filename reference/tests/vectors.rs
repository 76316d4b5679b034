//! The file of test vectors: its format, its contents, its size.

use reference::accept::load;
use reference::calls::decode_loaded;
use reference::checksum::Checksum;
use reference::encode;
use reference::record::Record;
use reference::streams::{self, pack};
use reference::vectors::file::{call, Case, Walk, CHECK, COMPILE_JOB, COMPILE_JOINED, COMPILE_RUN_LENGTH, DECODE};
use reference::vectors::file::{
    DECODE_STREAM, ENCODE, KINDS, LISTING, RECORD_ROOM, UNWEAVE, VERIFY, VERIFY_STREAM, WEAVE,
};
use reference::vectors::fixed::{E2, TELLING};
use reference::vectors::marks::{self, Told};
use reference::vectors::stream_borders::{count_and_stream, telling};
use reference::vectors::{data, generate, hex, tails, verifying, weaving, with_tail};
use std::collections::HashSet;
use std::ops::Range;

/// The cases of verifying, counted from 0.
const VERIFIED: Range<usize> = 11_769..12_118;

/// The cases before request (h), counted from 0, whose answer it changed, and their refusals now.
const CHANGED: [(usize, u8); 9] =
    [(58, 1), (59, 1), (164, 17), (165, 17), (2921, 17), (2951, 17), (2982, 17), (3003, 17), (3027, 17)];

#[test]
fn the_file_walks_and_every_case_answers_again() {
    let bytes = generate(1);
    assert!(bytes.len() < 900_000);
    assert_eq!(bytes.last(), Some(&0));
    let mut seen = [[false; 18]; KINDS.len()];
    let mut inputs = HashSet::new();
    let mut walk = Walk(&bytes);
    for (place, case) in walk.by_ref().enumerate() {
        seen[usize::from(case.kind)][usize::from(case.answer.refusal)] = true;
        assert!(inputs.insert((case.kind, case.room, case.first.clone(), case.second.clone())), "a case stands once");
        if place % 5 == 0 {
            assert_eq!(call(case.kind, case.room, &case.first, &case.second), case.answer);
        }
    }
    assert!(walk.0.is_empty());
    let refusals = |kind: usize| (0..18).filter(|refusal| seen[kind][*refusal]).collect::<Vec<_>>();
    assert_eq!(refusals(1), [0, 1, 2, 3, 4, 5, 6, 8, 13, 17]);
    assert_eq!(refusals(2), [0, 1, 2, 3, 4, 5, 6, 8, 13, 17]);
    assert_eq!(refusals(3), [0, 7, 8, 9, 10]);
    assert_eq!(refusals(4), [0, 7, 8, 9, 10, 11, 13]);
    assert_eq!(refusals(5), [0, 7, 8, 9, 10, 11, 12, 13]);
    assert_eq!(refusals(6), [0, 7, 8, 9, 10]);
    assert_eq!(refusals(7), [0, 13]);
    assert_eq!(refusals(8), [0, 1, 2, 3, 4, 5, 6, 8, 13, 14]);
    assert_eq!(refusals(9), [0, 1, 11, 13], "1,000,001 words are too long for the file");
    assert_eq!(refusals(10), [0, 1, 13, 15]);
    assert_eq!(refusals(11), [0, 7, 8, 9, 10, 11, 13], "so are 1,000,001 blocks");
    assert_eq!(refusals(12), [0, 7, 8, 9, 10, 12, 13, 15]);
    assert_eq!(refusals(13), [0, 7, 8, 9, 10, 13]);
    assert_eq!(refusals(14), [0, 13, 16]);
    assert_eq!(refusals(15), [0, 13, 16]);
    assert_eq!(refusals(16), [0, 7, 8, 9, 10, 11, 12]);
    assert_eq!(refusals(17), [0, 7, 8, 9, 10, 12, 15]);
}

/// Every input that tells for request (a) stands in the file, and where it compiles also with the exact room and with
/// one byte less.
#[test]
fn the_file_has_the_inputs_that_tell() {
    let bytes = generate(1);
    let rooms = |job: &str| {
        let same = |case: &Case| case.kind == COMPILE_JOINED && case.first == hex(job);
        Walk(&bytes).filter(same).map(|case| case.room).collect::<Vec<_>>()
    };
    for job in TELLING {
        let length = call(COMPILE_JOINED, RECORD_ROOM, &hex(job), &[]).output.len();
        let expected = if length > 0 { vec![RECORD_ROOM, length, length - 1] } else { vec![RECORD_ROOM, 0] };
        assert_eq!(rooms(job), expected, "{job}");
    }
}

/// So does every input that tells for request (b) and is short enough.
#[test]
fn the_file_has_the_streams_that_tell() {
    let bytes = generate(1);
    let inputs: HashSet<_> = Walk(&bytes).map(|case| (case.kind, case.room, case.first, case.second)).collect();
    assert!(telling().iter().all(|call| inputs.contains(call)));
}

/// So does every input that tells for request (c), and the records as the document first printed them are checked,
/// encoded and decoded under.
#[test]
fn the_file_has_the_data_that_tell() {
    let bytes = generate(1);
    let inputs: HashSet<_> = Walk(&bytes).map(|case| (case.kind, case.first)).collect();
    for job in data::RUN_LENGTH {
        assert!([COMPILE_RUN_LENGTH, LISTING].iter().all(|kind| inputs.contains(&(*kind, job.to_vec()))), "{job:?}");
    }
    assert!(data::GENERAL.iter().chain([&data::TIE]).all(|job| inputs.contains(&(COMPILE_JOB, hex(job)))));
    for record in [E2, data::FIRST_LISTED] {
        assert!([CHECK, ENCODE, DECODE].iter().all(|kind| inputs.contains(&(*kind, hex(record)))), "{record}");
    }
}

/// So does every input that tells for request (d): its words with the exact room and with one byte less, its stream.
#[test]
fn the_file_has_the_marks_that_tell() {
    let bytes = generate(1);
    let inputs: HashSet<_> = Walk(&bytes).map(|case| (case.kind, case.room, case.first, case.second)).collect();
    for Told { record, words, blocks } in marks::telling() {
        let stream = pack(load(&record).unwrap().q, &words);
        let stream = count_and_stream(words.len() as u64, &stream);
        assert!(inputs.contains(&(DECODE_STREAM, blocks.len(), record.clone(), stream)), "{words:?}");
        for room in [blocks.len(), blocks.len() - 1] {
            assert!(inputs.contains(&(DECODE, room, record.clone(), words.clone())), "{words:?}");
        }
    }
}

/// So does every input that tells for request (e); every value of the tail datum is checked, and each good one is
/// encoded and decoded under; records in the old shape are checked whole, cut and lengthened by a byte.
#[test]
fn the_file_has_the_tail_data_that_tell() {
    let bytes = generate(1);
    let inputs: HashSet<_> = Walk(&bytes).map(|case| (case.kind, case.room, case.first, case.second)).collect();
    assert!(tails::telling().iter().chain(&with_tail::telling()).all(|call| inputs.contains(call)));
    let records: HashSet<_> = inputs.into_iter().map(|(kind, _, first, _)| (kind, first)).collect();
    for (record, value) in tails::records().iter().flat_map(|record| (0..16).map(move |value| (record, value))) {
        let kinds = if value < 1 << record.p { &[CHECK, ENCODE, DECODE][..] } else { &[CHECK] };
        assert!(kinds.iter().all(|kind| records.contains(&(*kind, tails::with_value(record, value)))));
    }
    for shape in tails::old_records().iter().map(tails::old_shape) {
        let (cut, longer) = (shape[..shape.len() - 1].to_vec(), [&shape[..], &[0]].concat());
        assert!([shape, cut, longer].into_iter().all(|bytes| records.contains(&(CHECK, bytes))));
    }
}

/// So does every input that tells for request (f); every D from 2 to 16 is done both ways with words that tell them
/// apart, and refused with too little room and for a length that it does not divide.
#[test]
fn the_file_has_the_weavings_that_tell() {
    let bytes = generate(1);
    let cases: Vec<Case> = Walk(&bytes).filter(|case| [WEAVE, UNWEAVE].contains(&case.kind)).collect();
    let has = |call| cases.iter().any(|case| (case.kind, case.room, case.first.clone(), case.second.clone()) == call);
    assert!(weaving::telling().into_iter().all(has));
    for (d, kind) in (2..=16).flat_map(|d| weaving::WAYS.map(|kind| (d, kind))) {
        let with = |refusal| cases.iter().filter(move |case| (case.kind, case.answer.refusal) == (kind, refusal));
        let of = |refusal| with(refusal).filter(|case| case.first == weaving::depth(d));
        let other = WEAVE + UNWEAVE - kind;
        assert!(of(0).any(|case| call(other, case.room, &case.first, &case.second).output != case.answer.output));
        assert!(of(13).count() > 0 && of(16).count() > 0, "D {d}");
    }
}

/// So does every input that tells for verifying; its cases lend no output, write nothing, and stand together.
#[test]
fn the_file_has_the_verifications_that_tell() {
    let bytes = generate(1);
    let (cases, others): (Vec<_>, Vec<_>) = Walk(&bytes).enumerate().partition(|(place, _)| VERIFIED.contains(place));
    assert!(others.iter().all(|(_, case)| case.kind < VERIFY));
    let cases: Vec<Case> = cases.into_iter().map(|(_, case)| case).collect();
    assert!(cases.iter().all(|case| case.kind >= VERIFY && case.room == 0 && case.answer.output.is_empty()));
    let inputs: HashSet<_> = cases.into_iter().map(|case| (case.kind, case.room, case.first, case.second)).collect();
    assert!(verifying::telling().iter().all(|call| inputs.contains(call)));
}

/// The number of words in front in which two lists agree.
fn common(one: &[u8], other: &[u8]) -> usize {
    one.iter().zip(other).take_while(|(one, other)| one == other).count()
}

/// Other ways to read what comes back: without closing words, closing words after a mark too, closing with 0, a mark
/// taken for 0, and every word that agrees counted. What each answers.
fn others(record: &Record, words: &[u8]) -> [usize; 5] {
    let blocks = decode_loaded(record, words, words.len()).output;
    let mark = blocks.iter().position(|block| *block >= 254).unwrap_or(blocks.len());
    let plain: Vec<u8> = blocks.iter().map(|block| if *block >= 254 { 0 } else { *block }).collect();
    let with_0 = Record { tail: 0, ..record.clone() };
    let short = common(&encode::words(record, &blocks[..mark])[..mark], words);
    let closed = common(&encode::words(record, &blocks[..mark]), words);
    let zero = if mark == blocks.len() { common(&encode::words(&with_0, &blocks), words) } else { short };
    let all = encode::words(record, &plain);
    let agree = all.iter().zip(words).filter(|(one, other)| one == other).count();
    [short, closed, zero, common(&all, words), agree]
}

/// The words of a count of eight bytes and a stream.
fn unpacked(record: &Record, bytes: &[u8]) -> Vec<u8> {
    let (count, stream) = bytes.split_first_chunk().unwrap();
    streams::unpack(record.q, u64::from_be_bytes(*count) as usize, stream)
}

/// Each of these readings differs from the call on some case of the file of vectors, from a list and from a stream.
#[test]
fn the_file_tells_the_readings_apart() {
    let bytes = generate(1);
    for kind in [VERIFY, VERIFY_STREAM] {
        let mut told = [0; 5];
        for case in Walk(&bytes).filter(|case| case.kind == kind && case.answer.refusal == 0) {
            let record = load(&case.first).unwrap();
            let words = match kind {
                VERIFY => case.second,
                _ => unpacked(&record, &case.second),
            };
            for (told, other) in told.iter_mut().zip(others(&record, &words)) {
                *told += usize::from(other != case.answer.value as usize);
            }
        }
        assert!(told.iter().all(|count| *count > 5), "kind {kind}: {told:?}");
    }
}

/// The bytes' checksum.
fn checksum(bytes: &[u8]) -> u64 {
    let mut checksum = Checksum::default();
    checksum.add(bytes);
    checksum.value()
}

/// The file as it was before request (h), which changed the refusals of these cases, all of them 8.
fn before_weights(bytes: &[u8]) -> Vec<u8> {
    let mut old = bytes.to_vec();
    let mut walk = Walk(bytes);
    for place in 0..VERIFIED.end {
        let begun = bytes.len() - walk.0.len();
        let case = walk.next().unwrap();
        if let Some((_, refusal)) = CHANGED.iter().find(|changed| changed.0 == place) {
            assert_eq!(case.answer.refusal, *refusal, "case {place}");
            old[begun + 7 + case.first.len() + case.second.len()] = 8;
        }
    }
    old
}

/// The numbers that the README states. The cases before request (h) are what they were, byte for byte, but for the
/// answers that it changed; so are those before verifying, and those before request (f).
#[test]
fn the_file_is_the_one_described() {
    let bytes = generate(1);
    let described = |bytes: &[u8], length: usize| {
        let ended = [&bytes[..length - 1], &[0]].concat();
        (Walk(&ended).count(), checksum(&ended))
    };
    assert_eq!(bytes.len(), 862_996);
    assert_eq!(described(&bytes, 862_996), (12_818, 0x727f_bc5c_5957_efcb));
    assert_eq!(described(&bytes, 833_966), (12_118, 0x6f01_9735_4bad_c208));
    let old = before_weights(&bytes);
    assert_eq!(described(&old, 833_966), (12_118, 0xa190_fefd_634d_0983));
    assert_eq!(described(&old, 816_756), (11_769, 0x8e58_996f_2305_f905));
    assert_eq!(described(&old, 799_028), (11_518, 0x77f4_3ce1_7414_6caa));
}
