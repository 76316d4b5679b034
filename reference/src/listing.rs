//! The listing program's text ("Proved examples", the end).

use crate::answer::{Refusal, LENGTH};
use crate::compile::compile;
use crate::job::Job;
use crate::record::Record;

/// The listing of a run-length job, or else `refused` and the number, each line with its newline.
pub fn text(job: &[u8]) -> String {
    match five_bytes(job).and_then(Job::run_length).and_then(|job| compile(&job)) {
        Ok(record) => of_record(&record),
        Err(refusal) => format!("refused {refusal}\n"),
    }
}

/// "The listing program reads five bytes": 8 for any other length, before all else, so that it takes no weights (the
/// readings).
fn five_bytes(job: &[u8]) -> Result<&[u8], Refusal> {
    if job.len() == 5 {
        Ok(job)
    } else {
        Err(LENGTH)
    }
}

/// One line with p, q, states, m, a; then for each entry state, datum, word in binary, next.
fn of_record(record: &Record) -> String {
    let Record { p, q, m, a, .. } = record;
    let mut text = format!("{p} {q} {} {m} {a}\n", record.table.states());
    for (state, row) in record.table.rows.iter().enumerate() {
        for (datum, entry) in row.iter().enumerate() {
            text += &format!("{state} {datum} {:0width$b} {}\n", entry.word, entry.next, width = *q);
        }
    }
    text
}
