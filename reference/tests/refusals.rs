//! Each row of the refusal table, and the order of the refusals.

use reference::answer::Answer;
use reference::calls::{check, compile_job, compile_run_length, decode, encode, set};
use reference::sets::pack;
use reference::vectors::fixed::{heavy, E2, LISTED};
use reference::vectors::hex;

fn run_length(job: &str) -> u8 {
    compile_run_length(&hex(job), 4096).refusal
}

fn general(job: &str) -> u8 {
    compile_job(&hex(job), 4096).refusal
}

fn checked(record: &str) -> u8 {
    check(&hex(record)).refusal
}

fn listed() -> Vec<u8> {
    compile_run_length(&LISTED, 4096).output
}

fn refused(refusal: u8, value: u32) -> Answer {
    Answer { refusal, value, output: vec![] }
}

#[test]
fn rows_1_to_6() {
    assert_eq!(run_length("00 01 05 02 01"), 1);
    assert_eq!(run_length("03 02 01 02 01"), 2);
    assert_eq!(run_length("00 01 02 03 01"), 3);
    assert_eq!(compile_job(&heavy(9), 4096).refusal, 4);
    assert_eq!(run_length("00 0f 01 08 01"), 5);
    assert_eq!(general("02 03 02 02 01 00 00 ff"), 6);
}

#[test]
fn rows_7_to_10() {
    assert_eq!(checked("04 04 40 40 23 00 41 01 01 80 e0 00"), 7);
    assert_eq!(checked(""), 8);
    assert_eq!(checked("24 04 40 40 23 00 40 01 01 80 e0 00"), 9);
    assert_eq!(checked("24 04 00 40 23 00 41 01 01 80 e0 00"), 10);
}

#[test]
fn rows_11_to_13() {
    assert_eq!(encode(&hex(E2), &[2], 9), refused(11, 0));
    assert_eq!(encode(&hex(E2), &[1, 0, 2, 9], 9), refused(11, 2));
    assert_eq!(decode(&hex(E2), &[1, 4], 9), refused(11, 1));
    assert_eq!(decode(&listed(), &[], 9), refused(12, 0));
    assert_eq!(compile_run_length(&[0, 1, 1, 2, 1], 11), refused(13, 0));
    assert_eq!(compile_run_length(&[0, 1, 1, 2, 1], 12).refusal, 0);
}

#[test]
fn ranges_of_a_job() {
    for bad in ["00 01 00 02 01", "00 01 01 00 01", "00 01 01 09 01", "00 01 01 02 00", "00 01 01 02 11"] {
        assert_eq!(run_length(bad), 1);
    }
    for bad in ["00 10 01 02 01", "01 00 01 02 01", "10 10 01 02 01"] {
        assert_eq!(run_length(bad), 2);
    }
    assert_eq!(general("01 01 01 01 00 00"), 0);
    for bad in ["01 01 01 01 01 00", "01 01 01 01 00 fe", "01 01 01 02 00 00 00 02"] {
        assert_eq!(general(bad), 2);
    }
}

#[test]
fn order_of_a_job() {
    assert_eq!(general("05 01 01"), 8);
    assert_eq!(general("05 01 01 00"), 1);
    assert_eq!(general("01 01 01 00"), 2);
    assert_eq!(general("01 01 01 11 00"), 2);
    assert_eq!(general("01 01 01 01 07"), 8);
    assert_eq!(general("01 01 01 01 07 00 00"), 2, "8 before request (h): the last byte is a weight");
    assert_eq!(general("01 01 01 01 07 00 00 00"), 8);
    assert_eq!(general("01 01 01 01 07 00"), 2);
    assert_eq!(general("01 01 01 01 ff 00"), 3);
    assert_eq!(compile_job(&hex("02 03 02 02 01 00 00 ff"), 0).refusal, 6);
    assert_eq!(compile_job(&hex("01 01 01 01 00 00"), 0).refusal, 13);
}

#[test]
fn order_of_a_run_length_job() {
    assert_eq!(run_length("03 02 05 02"), 8);
    assert_eq!(run_length("03 02 05 02 01"), 1);
    assert_eq!(compile_run_length(&[0, 1, 2, 3, 1], 0).refusal, 3);
    assert_eq!(compile_run_length(&[0, 15, 1, 8, 1], 0).refusal, 5);
}

#[test]
fn order_of_a_record() {
    assert_eq!(checked("04 04 40 40"), 8);
    assert_eq!(checked("04 04 40 40 23"), 7);
    assert_eq!(checked("24 04 40 48 23"), 7, "the constraint start is a field of the header");
    assert_eq!(checked("24 04 40 40 a3"), 7, "so is the tail datum");
    assert_eq!(checked("24 04 40 40 23"), 8);
    assert_eq!(checked("24 04 40 40 27 c0 41 01 01 80 e0 00 00"), 8, "8 before a next state");
    assert_eq!(checked("24 04 40 40 27 c0 41 01 01 80 e0 00"), 7, "a next state of the constraint");
    assert_eq!(checked("24 04 40 40 23 01 41 01 01 80 e0 00"), 7, "an absent state that is not 0");
    assert_eq!(checked("24 04 40 40 23 00 40 01 01 80 e0 01"), 7, "fill before 9");
    assert_eq!(checked("24 04 00 40 23 00 40 01 01 80 e0 00"), 9, "9 before 10");
}

#[test]
fn order_of_encoding() {
    assert_eq!(encode(&[], &[2], 0), refused(8, 0), "the record before 13");
    assert_eq!(encode(&hex(E2), &[2], 0), refused(13, 0), "13 before 11");
    assert_eq!(encode(&listed(), &[4], 2), refused(11, 0));
    assert_eq!(encode(&listed(), &[3], 1), refused(13, 0), "the a last words need room");
}

#[test]
fn order_of_decoding() {
    assert_eq!(decode(&[4, 0, 0, 0, 0], &[], 0), refused(7, 0), "the record before 12");
    assert_eq!(decode(&listed(), &[], 0), refused(12, 0));
    assert_eq!(decode(&listed(), &[8, 8], 0), refused(13, 0), "13 before 11");
    assert_eq!(decode(&listed(), &[7, 8], 1), refused(11, 1));
}

#[test]
fn sets() {
    let number = |value| Answer { refusal: 0, value, output: vec![] };
    let pair = pack(&[hex(E2), listed()]);
    assert_eq!(set(&[]), refused(8, 0));
    assert_eq!(set(&[0]), number(0));
    assert_eq!(set(&pair), number(2));
    assert_eq!(set(&pair[..1]), refused(8, 0));
    assert_eq!(set(&pair[..16]), refused(8, 1), "the second length is cut off");
    assert_eq!(set(&pair[..pair.len() - 1]), refused(8, 1));
    assert_eq!(set(&[&pair[..], &[0]].concat()), refused(8, 2), "bytes left over");
    assert_eq!(set(&pack(&[hex(E2), vec![4, 0, 0, 0, 0]])), refused(7, 1));
    assert_eq!(set(&pack(&[vec![], vec![4, 0, 0, 0, 0]])), refused(8, 0), "the first bad one ends the walk");
}
