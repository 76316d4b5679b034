//! Request (c): what holds of every table, and what becomes of the windows.

use reference::answer::Refusal;
use reference::compile::{compile, rising, with_window};
use reference::data::given;
use reference::job::Job;
use reference::record::Record;
use reference::table::Entry;
use reference::vectors::data::GENERAL;
use reference::vectors::hex;
use reference::vectors::jobs::{every_run_length, general, parameters};
use reference::vectors::joined;
use reference::vectors::random::Random;
use std::collections::BTreeSet;

/// The edges of a state, in no order.
fn edges(row: &[Entry]) -> BTreeSet<(u8, usize)> {
    row.iter().map(|entry| (entry.word, entry.next)).collect()
}

/// Each state of the job's table has the edges that it had before the data were given, n of them, and state 0 has them
/// in its old order. Answers whether the job has a table that changed.
fn keeps_its_edges(job: &Job) -> bool {
    let Ok(record) = compile(job) else { return false };
    let old = rising(job).unwrap().0;
    assert_eq!(record.table, given(&old), "{job:?}");
    assert_eq!(record.table.states(), old.states());
    assert_eq!(record.table.rows[0], old.rows[0]);
    for (row, old) in record.table.rows.iter().zip(&old.rows) {
        assert_eq!((row.len(), edges(row)), (job.n(), edges(old)), "{job:?}");
        assert_eq!(edges(row).len(), job.n(), "no edge stands twice");
    }
    record.table != old
}

#[test]
fn every_state_of_a_run_length_job_keeps_its_edges() {
    let jobs = every_run_length().map(|bytes| Job::run_length(&bytes).unwrap());
    assert!(jobs.filter(keeps_its_edges).count() > 5_000);
}

#[test]
fn every_state_of_other_jobs_keeps_its_edges() {
    let mut random = Random::seeded(41);
    let mut changed = 0;
    for _ in 0..2000 {
        changed += usize::from(keeps_its_edges(&Job::general(&general(&mut random)).unwrap()));
        let (first, second) = joined::any(&mut random);
        let job = Job::joined(&joined::job(parameters(&mut random), &first, &second));
        changed += usize::from(job.is_ok_and(|job| keeps_its_edges(&job)));
    }
    assert!(changed > 200, "{changed}");
}

/// The record of a job as it was before the request.
fn before(job: &Job) -> Result<Record, Refusal> {
    let (table, start) = rising(job)?;
    with_window(job, start, table)
}

fn window(record: Result<Record, Refusal>) -> Result<(usize, usize), Refusal> {
    record.map(|record| (record.m, record.a))
}

/// Windows before the request and after it.
#[test]
fn windows_before_and_now() {
    let told = [
        ([0, 1, 1, 2, 1], (1, 0), (0, 0)),
        ([1, 3, 1, 2, 1], (1, 0), (0, 0)),
        ([0, 1, 2, 3, 2], (1, 1), (0, 1)),
        ([2, 8, 1, 2, 7], (3, 8), (4, 8)),
        ([1, 7, 2, 3, 3], (3, 3), (3, 3)),
        ([2, 7, 1, 2, 4], (3, 4), (3, 4)),
    ];
    for (bytes, old, new) in told {
        let job = Job::run_length(&bytes).unwrap();
        assert_eq!((window(before(&job)), window(compile(&job))), (Ok(old), Ok(new)), "{bytes:?}");
    }
}

#[test]
fn numbers_of_states_stay() {
    for (bytes, states) in [([1, 7, 2, 3, 3], 18), ([2, 7, 1, 2, 4], 22)] {
        assert_eq!(compile(&Job::run_length(&bytes).unwrap()).unwrap().table.states(), states);
    }
}

/// The first job had a window and has none now, the second had none and has one now.
#[test]
fn refusal_6_comes_and_goes() {
    let [comes, goes] = GENERAL.map(|job| Job::general(&hex(job)).unwrap());
    assert_eq!((window(before(&comes)), window(compile(&comes))), (Ok((1, 0)), Err(6)));
    assert_eq!(window(before(&goes)), Err(6));
    assert!(compile(&goes).is_ok());
}
