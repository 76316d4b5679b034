//! "Compiling": the five steps in order, with refusals 3 or 17 (request (h)), 4, 5, 6.

use crate::answer::{Refusal, NO_WINDOW};
use crate::component::component;
use crate::data;
use crate::job::Job;
use crate::record::Record;
use crate::split::split_all;
use crate::table::Table;
use crate::window::Search;

/// The record of a job: its table with the data of request (c), and the least window of that table.
pub fn compile(job: &Job) -> Result<Record, Refusal> {
    let (table, start) = rising(job)?;
    with_window(job, start, data::given(&table))
}

/// The table of a job with rising data in each state, as the document has it before request (c), and the constraint
/// start.
pub fn rising(job: &Job) -> Result<(Table, usize), Refusal> {
    let (graph, start) = component(job)?;
    let graph = split_all(graph, job.n())?;
    Ok((Table::of(&graph, job.n()), start))
}

/// The record of a job with this table: "the working pair with least m + a, then least a", or refusal 6. The tail
/// datum is 0: "the compiler writes 0" (request (e)).
pub fn with_window(job: &Job, start: usize, table: Table) -> Result<Record, Refusal> {
    let (m, a) = Search::of(&table).least().ok_or(NO_WINDOW)?;
    Ok(Record { p: job.p, q: job.q, m, a, start, tail: 0, constraint: job.constraint.clone(), table })
}
