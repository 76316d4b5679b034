//! "A table is accepted when ...": refusals 9 and 10, and a record loaded with every check.

use crate::answer::{Refusal, BREAKS, WINDOW_FAILS};
use crate::record::Record;
use crate::window::Search;

/// A record from bytes with every check: 8, 7, 8, 7, 9, 10.
pub fn load(bytes: &[u8]) -> Result<Record, Refusal> {
    let record = Record::parse(bytes)?;
    accept(&record)?;
    Ok(record)
}

/// Refusal 9 if some recording breaks the constraint, then 10 if the window fails.
pub fn accept(record: &Record) -> Result<(), Refusal> {
    if !keeps_constraint(record) {
        return Err(BREAKS);
    }
    if !Search::of(&record.table).works(record.m, record.a) {
        return Err(WINDOW_FAILS);
    }
    Ok(())
}

/// Every recording, followed bit by bit from the constraint start, always finds a next state.
///
/// Any data may come after any data, so this asks every entry of each table state with each constraint state that
/// can stand beside it. Table states not reachable from state 0 are not asked (the readings), and a table state
/// may stand beside several constraint states ("Plausible and false", the last line). The tail datum is not asked: the
/// closing blocks are data that other recordings have as data blocks (request (e)).
fn keeps_constraint(record: &Record) -> bool {
    let mut seen = vec![[false; 16]; record.table.states()];
    let mut open = vec![(0, record.start)];
    seen[0][record.start] = true;
    while let Some((state, beside)) = open.pop() {
        for entry in &record.table.rows[state] {
            let Some(then) = record.constraint.follow(beside, entry.word, record.q) else {
                return false;
            };
            if !seen[entry.next][then] {
                seen[entry.next][then] = true;
                open.push((entry.next, then));
            }
        }
    }
    true
}
