//! "Compiling", step 1: the weights; and those brought with a job (request (h)).

use crate::answer::{Refusal, NO_WEIGHTS, WEIGHTS_FAIL};
use crate::job::Job;

/// A(s, t): the number of words leading from s to t.
pub fn counts(powers: &[Vec<Option<usize>>]) -> Vec<Vec<u32>> {
    let mut counts = vec![vec![0; powers.len()]; powers.len()];
    for (s, row) in powers.iter().enumerate() {
        for t in row.iter().flatten() {
            counts[s][*t] += 1;
        }
    }
    counts
}

/// The weights that "the component, the splits and everything after use": those brought with the job, or refusal 17
/// "for weights that fail, at the place of 3"; "on this path nothing is said about whether a code exists" (request
/// (h)). If none were brought, the greatest vector, or refusal 3 if it is all 0.
pub fn used(job: &Job) -> Result<Vec<u32>, Refusal> {
    if let Some(brought) = &job.brought {
        return Some(brought.clone()).filter(|brought| passes(job, brought)).ok_or(WEIGHTS_FAIL);
    }
    Some(greatest(job)).filter(|weights| some_above_0(weights)).ok_or(NO_WEIGHTS)
}

/// Weights of any kind, not only those brought with this job, pass: they "must be at most cap, not all 0, and meet the
/// inequality at each state of the constraint" (request (h)), states of weight 0 too. There is one a state.
pub fn passes(job: &Job, weights: &[u32]) -> bool {
    let one_a_state = weights.len() == job.constraint.states();
    let up_to_cap = weights.iter().all(|weight| *weight <= job.cap);
    one_a_state && up_to_cap && some_above_0(weights) && meets_inequality(job, weights)
}

fn some_above_0(weights: &[u32]) -> bool {
    weights.iter().any(|weight| *weight > 0)
}

/// A v >= n v.
fn meets_inequality(job: &Job, weights: &[u32]) -> bool {
    let n = job.n() as u32;
    let counts = counts(&job.constraint.powers(job.q));
    counts.iter().zip(weights).all(|(row, weight)| sum(row, weights) >= n * weight)
}

/// The greatest vector with A v >= n v and entries up to cap: start with cap at every state. Weights brought with the
/// job are not looked at.
pub fn greatest(job: &Job) -> Vec<u32> {
    greatest_below(job, vec![job.cap; job.constraint.states()])
}

/// The greatest vector with A v >= n v that is nowhere above these weights: replace all weights together until nothing
/// changes.
pub fn greatest_below(job: &Job, mut weights: Vec<u32>) -> Vec<u32> {
    let counts = counts(&job.constraint.powers(job.q));
    loop {
        let lower = round(&counts, &weights, job.n() as u32);
        if lower == weights {
            return weights;
        }
        weights = lower;
    }
}

/// One round: at each state the smaller of the old weight and the sum over t of A(s, t) times the weight of t,
/// divided by n and rounded down.
fn round(counts: &[Vec<u32>], weights: &[u32], n: u32) -> Vec<u32> {
    counts.iter().zip(weights).map(|(row, old)| (*old).min(sum(row, weights) / n)).collect()
}

/// The sum over t of A(s, t) times the weight of t, for one state s.
fn sum(row: &[u32], weights: &[u32]) -> u32 {
    row.iter().zip(weights).map(|(count, weight)| count * weight).sum()
}
