//! E1 to E10 and the listing. E1, E3, E7 and the listing are those of request (c), "worked afresh", and E4 is that of
//! request (d); E2 is that of request (e), "for the table it already holds"; the first listing is as the document
//! first printed it, and its table stays a good one. All records have the tail datum 0 of request (e).

use reference::accept::load;
use reference::calls::{check, compile_job, compile_run_length, decode, encode, listing};
use reference::compile::{rising, with_window};
use reference::job::Job;
use reference::record::Record;
use reference::vectors::data::{E1, FIRST_LISTED};
use reference::vectors::fixed::{heavy, mfm, E2, LISTED};
use reference::vectors::hex;
use reference::weights::greatest;

const LISTING: &str = "2 3 3 0 1
0 0 011 0
0 1 011 2
0 2 101 0
0 3 101 2
1 0 110 1
1 1 111 0
1 2 101 0
1 3 101 2
2 0 110 1
2 1 111 0
2 2 010 1
2 3 111 2
";

/// The listing as the document first printed it.
const FIRST_LISTING: &str = "2 3 3 1 1
0 0 011 0
0 1 011 2
0 2 101 0
0 3 101 2
1 0 101 0
1 1 101 2
1 2 110 1
1 3 111 0
2 0 010 1
2 1 110 1
2 2 111 0
2 3 111 2
";

fn weights(job: &[u8]) -> Vec<u32> {
    greatest(&Job::run_length(job).unwrap())
}

fn record(job: &[u8]) -> Record {
    let answer = compile_run_length(job, 4096);
    assert_eq!(answer.refusal, 0);
    assert_eq!(answer.value as usize, answer.output.len());
    load(&answer.output).unwrap()
}

/// The record of a job as it was before request (c).
fn before(job: &[u8]) -> Record {
    let job = Job::run_length(job).unwrap();
    let (table, start) = rising(&job).unwrap();
    with_window(&job, start, table).unwrap()
}

fn rows(record: &Record) -> Vec<Vec<(u8, usize)>> {
    let pairs = |row: &Vec<_>| row.iter().map(|e: &reference::table::Entry| (e.word, e.next)).collect();
    record.table.rows.iter().map(pairs).collect()
}

#[test]
fn e1_weights_table_and_window() {
    assert_eq!(weights(&E1), [1, 1]);
    let record = record(&E1);
    assert_eq!(rows(&record), [[(1, 0), (2, 1)], [(3, 0), (2, 1)]]);
    assert_eq!((record.m, record.a, record.start), (0, 0, 0));
    assert_eq!(compile_run_length(&E1, 12).output, hex("24 04 00 40 23 00 41 01 01 c0 40 40"));
}

/// "E2's old bytes remain an accepted record" (request (c)), "worked afresh for the table it already holds, with tail
/// datum 0" (request (e)): the record that E1's job had before request (c).
#[test]
fn e2_record() {
    assert_eq!(check(&hex(E2)).refusal, 0);
    let record = load(&hex(E2)).unwrap();
    assert_eq!(rows(&record), [[(1, 0), (2, 1)], [(2, 1), (3, 0)]]);
    assert_eq!((record.m, record.a, record.start, record.tail), (1, 0, 0, 0));
    assert_eq!(before(&E1), record);
}

#[test]
fn e3_encoding() {
    let compiled = compile_run_length(&E1, 12).output;
    for (record, words) in [(compiled, vec![2, 3, 2, 2]), (hex(E2), vec![2, 2, 3, 2])] {
        let answer = encode(&record, &[1, 0, 1, 1], 4);
        assert_eq!((answer.refusal, answer.value), (0, 4));
        assert_eq!(answer.output, words);
        assert_eq!(decode(&record, &words, 4).output, [1, 0, 1, 1]);
    }
}

#[test]
fn e4_decoding() {
    let answer = decode(&hex(E2), &[2, 3, 3, 2], 4);
    assert_eq!((answer.refusal, answer.value, answer.output), (0, 4, vec![1, 1, 254, 1]));
}

#[test]
fn e5_two_to_three() {
    assert_eq!(compile_run_length(&[0, 1, 2, 3, 1], 4096).refusal, 3);
    assert_eq!(weights(&[0, 1, 2, 3, 2]), [2, 1]);
}

#[test]
fn e6_two_seven() {
    assert_eq!(compile_run_length(&[2, 7, 1, 2, 3], 4096).refusal, 3);
    assert_eq!(weights(&[2, 7, 1, 2, 4]), [2, 3, 4, 4, 3, 3, 2, 1]);
    assert_eq!(compile_run_length(&[2, 7, 1, 2, 4], 4096).refusal, 0);
}

#[test]
fn e7_one_three() {
    assert_eq!(weights(&[1, 3, 1, 2, 1]), [1, 1, 1, 0]);
    let record = record(&[1, 3, 1, 2, 1]);
    assert_eq!(rows(&record), [[(0, 2), (1, 0)], [(2, 1), (1, 0)], [(2, 1), (1, 0)]]);
    assert_eq!((record.m, record.a, record.constraint.states()), (0, 0, 4));
    assert_eq!(record.pack(), hex("24 08 00 c0 22 09 42 70 04 00 48 08 0a 02 02 80"));
}

#[test]
fn e8_mfm_is_accepted() {
    let record = load(&mfm()).unwrap();
    assert_eq!(rows(&record), [[(0, 1), (1, 0)], [(2, 1), (1, 0)]]);
    assert_eq!((record.m, record.a, record.start), (0, 0, 0));
    assert_eq!(mfm(), hex("24 04 00 c0 22 09 42 70 04 00 28 08 0a 00"));
}

#[test]
fn e9_eight_states() {
    assert_eq!(greatest(&Job::general(&heavy(8)).unwrap()), [16; 8]);
    assert_eq!(compile_job(&heavy(8), 4096).refusal, 0);
    assert_eq!(compile_job(&heavy(9), 4096).refusal, 4);
}

#[test]
fn e10_no_data() {
    let record = compile_run_length(&LISTED, 4096).output;
    let answer = encode(&record, &[], 1);
    assert_eq!((answer.refusal, answer.output), (0, vec![3]));
    assert_eq!(encode(&hex(FIRST_LISTED), &[], 1).output, [3]);
}

#[test]
fn the_listing() {
    let answer = listing(&LISTED, LISTING.len());
    assert_eq!((answer.refusal, answer.value as usize), (0, LISTING.len()));
    assert_eq!(String::from_utf8(answer.output).unwrap(), LISTING);
    assert_eq!(listing(&LISTED, LISTING.len() - 1).refusal, 13);
    let record = compile_run_length(&LISTED, 22).output;
    assert_eq!(record, hex("46 08 04 40 23 00 41 80 60 a8 0a 0b 01 e0 28 0a 0b 01 e0 10 1e 08"));
}

/// The record of the first listing has its entries line by line, is the one that the job had before request (c), and is
/// accepted; words decode under it with memory 1.
#[test]
fn the_first_listing_stays_a_record() {
    let record = load(&hex(FIRST_LISTED)).unwrap();
    let mut text = format!("{} {} {} {} {}\n", record.p, record.q, record.table.states(), record.m, record.a);
    for (state, row) in rows(&record).iter().enumerate() {
        let lines = row.iter().enumerate().map(|(datum, (word, next))| format!("{state} {datum} {word:03b} {next}\n"));
        text.extend(lines);
    }
    assert_eq!(text, FIRST_LISTING);
    assert_eq!(before(&LISTED), record);
    assert_eq!(check(&hex(FIRST_LISTED)).refusal, 0);
    assert_eq!(encode(&hex(FIRST_LISTED), &[1, 0, 1, 1], 5).output, [3, 2, 5, 6, 5]);
    assert_eq!(decode(&hex(FIRST_LISTED), &[3, 2, 5, 6, 5], 4).output, [1, 0, 1, 1]);
}
