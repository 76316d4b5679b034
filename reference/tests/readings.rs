//! The inputs that tell the readings of the document apart. The splitting has a file of its own.

use reference::accept::load;
use reference::calls::{check, compile_job, compile_run_length, decode, encode, listing, set};
use reference::compile::rising;
use reference::component::component;
use reference::job::Job;
use reference::record::{Header, Record};
use reference::vectors::data::TIE;
use reference::vectors::fixed::{loops, LISTED};
use reference::vectors::hex;
use reference::window::Search;

fn compiled(job: &str) -> Record {
    load(&compile_job(&hex(job), 4096).output).unwrap()
}

fn run_length(job: [u8; 5]) -> Record {
    load(&compile_run_length(&job, 4096).output).unwrap()
}

#[test]
fn unreachable_states_are_removed_by_kept_edges() {
    assert_eq!(run_length([0, 2, 1, 3, 1]).table.states(), 2);
}

#[test]
fn the_component_is_reached_by_words() {
    let record = compiled("01 02 01 02 01 01 00 00");
    assert_eq!((record.table.states(), record.constraint.states()), (1, 2));
}

#[test]
fn a_word_may_pass_a_state_of_weight_0() {
    let record = run_length([1, 3, 1, 2, 1]);
    assert_eq!(record.table.states(), 3);
    assert!(record.table.rows[2].iter().any(|entry| entry.word == 1), "01 from 2 passes state 3");
}

#[test]
fn refusal_4_is_the_component_s_sum() {
    assert_eq!(compile_job(&loops(16), 4096).refusal, 0);
}

#[test]
fn refusal_5_counts_state_word_target() {
    let job = Job::run_length(&[0, 8, 1, 8, 1]).unwrap();
    assert_eq!(component(&job).unwrap().0.edge_count(), 2049);
    assert_eq!(compile_run_length(&[0, 8, 1, 8, 1], 4096).refusal, 5);
    assert_eq!(compile_run_length(&[0, 15, 1, 8, 16], 4096).refusal, 4);
    assert_eq!(compile_run_length(&[0, 15, 1, 8, 8], 4096).refusal, 5);
}

#[test]
fn unreachable_states_count_for_the_window_alone() {
    assert_eq!(check(&hex("24 08 40 40 23 00 41 01 01 80 e0 00 08 00")).refusal, 0);
    assert_eq!(check(&hex("24 04 00 00 21 00 02 01 02 01")).refusal, 10);
}

#[test]
fn a_run_length_job_of_another_length() {
    assert_eq!(compile_run_length(&hex("00 01 05 02 01 00"), 4096).refusal, 1, "8 before request (h)");
    assert_eq!(compile_run_length(&hex("00 01 01 02 01 00"), 4096).refusal, 8);
    assert_eq!(compile_run_length(&hex("00 01 01 02"), 4096).refusal, 8);
}

#[test]
fn decoding_as_many_words_as_a() {
    let listed = compile_run_length(&LISTED, 4096).output;
    let bad = decode(&listed, &[255], 0);
    assert_eq!((bad.refusal, bad.value), (11, 0));
    let done = decode(&listed, &[7], 0);
    assert_eq!((done.refusal, done.value, done.output.len()), (0, 0, 0));
}

#[test]
fn a_bad_record_comes_before_a_short_output() {
    assert_eq!(encode(&[], &[0, 0], 0).refusal, 8);
    assert_eq!(decode(&[], &[0, 0], 0).refusal, 8);
}

#[test]
fn the_constraint_start_may_be_above_0() {
    assert_eq!(compiled("01 01 01 02 00 ff 01 01").start, 1);
}

/// The input of the readings tells on its table with rising data; with the data of request (c) it needs no window, and
/// another job tells.
#[test]
fn least_m_plus_a_then_least_a() {
    let named = "01 02 01 03 02 02 00 01 ff 01";
    let record = compiled(TIE);
    assert_eq!((record.m, record.a), (1, 0));
    for table in [rising(&Job::general(&hex(named)).unwrap()).unwrap().0, record.table] {
        let mut search = Search::of(&table);
        assert_eq!(search.least(), Some((1, 0)));
        assert!(search.works(0, 1) && !search.works(0, 0));
    }
    let record = compiled(named);
    assert_eq!((record.m, record.a), (0, 0));
}

#[test]
fn a_set_of_count_0_with_bytes_left_over() {
    let answer = set(&[0, 7]);
    assert_eq!((answer.refusal, answer.value), (8, 0));
}

#[test]
fn the_listing_of_a_refused_job() {
    assert_eq!(listing(&[0, 1, 2, 3, 1], 10).output, b"refused 3\n");
    assert_eq!(listing(&[0, 1, 2, 3], 10).output, b"refused 8\n");
    assert_eq!(listing(&[0, 1, 2, 3, 2, 0], 10).output, b"refused 8\n");
    assert_eq!(listing(&[0, 1, 2, 3, 1], 9).refusal, 13);
}

#[test]
fn the_largest_record() {
    let header = Header { p: 4, q: 8, states: 128, m: 15, a: 15, k: 16, start: 15, tail: 15 };
    assert_eq!(header.length(), 3865, "3,864 before request (e)");
}

#[test]
fn answers_are_not_monotone_in_cap() {
    let refusals: Vec<u8> = (1..=16).map(|cap| compile_run_length(&[1, 8, 1, 2, cap], 4096).refusal).collect();
    assert_eq!(refusals, [0, 0, 0, 0, 0, 0, 0, 0, 0, 0, 0, 0, 6, 0, 0, 4]);
}

#[test]
fn extreme_jobs() {
    assert_eq!(run_length([2, 9, 1, 2, 16]).table.states(), 128);
    let record = run_length([2, 10, 1, 2, 14]);
    assert_eq!((record.m, record.a), (5, 15));
    assert_eq!(run_length([2, 7, 4, 8, 16]).pack().len(), 3165);
    assert_eq!(compile_run_length(&[1, 11, 4, 7, 6], 4096).refusal, 5);
}
