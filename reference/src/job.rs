//! "Constraint and job" and requests (a) and (h): all three kinds of job from bytes, with refusals in the document's
//! order.

use crate::answer::{Refusal, CONSTRAINT, LENGTH, PARAMETER};
use crate::constraint::{Constraint, MOST_STATES};
use crate::joined::join;

/// A job that may be compiled.
#[derive(Clone, Debug, PartialEq, Eq)]
pub struct Job {
    pub p: usize,
    pub q: usize,
    pub cap: u32,
    pub constraint: Constraint,
    /// The weights that came with the job, one a state (request (h)). They are as they came: nothing is asked of them
    /// yet.
    pub brought: Option<Vec<u32>>,
}

impl Job {
    /// A job: p, q, cap, K, then two bytes a state; it "may come with K weight bytes after it" (request (h)).
    /// Order: 8 below four bytes, 1, K by 2, 8 ("a general job's later 8 now allows 4 + 2K and 4 + 3K"), next states by
    /// 2.
    pub fn general(bytes: &[u8]) -> Result<Job, Refusal> {
        let ([p, q, cap], rest) = parameters(bytes)?;
        let (states, rest) = number_of_states(rest)?;
        let (next, behind) = rest.split_at_checked(2 * states).ok_or(LENGTH)?;
        let brought = weights_behind(behind, states)?;
        Ok(Job { brought, ..Job::of(p, q, cap, Constraint::from_bytes(next)?) })
    }

    /// A joined job (request (a)): p, q, cap, "then each constraint as K and its next-state bytes". It takes no
    /// weights: they would be bytes left over (the readings).
    /// Order: "8 below four bytes, 1, then for each constraint 8 for a missing K, K by 2, 8, next states by 2", and 14
    /// "after both inputs pass 2".
    pub fn joined(bytes: &[u8]) -> Result<Job, Refusal> {
        let ([p, q, cap], rest) = parameters(bytes)?;
        let (first, rest) = first_constraint(rest)?;
        let second = last_constraint(rest)?;
        Ok(Job::of(p, q, cap, join(&first, &second)?))
    }

    /// A run-length job: the five bytes d, k, p, q, cap, and K = k + 1 weight bytes if weights are brought (request
    /// (h)). Order: "8 below five bytes, 1, 2, 8 for a length other than 5 or 5 + K".
    pub fn run_length(bytes: &[u8]) -> Result<Job, Refusal> {
        let (&[d, k, p, q, cap], behind) = bytes.split_first_chunk().ok_or(LENGTH)?;
        in_range(p, q, cap)?;
        if d > k || k > 15 {
            return Err(CONSTRAINT);
        }
        let constraint = Constraint::run_length(d, k);
        let brought = weights_behind(behind, constraint.states())?;
        Ok(Job { brought, ..Job::of(p, q, cap, constraint) })
    }

    /// A job without weights.
    fn of(p: u8, q: u8, cap: u8, constraint: Constraint) -> Job {
        Job { p: usize::from(p), q: usize::from(q), cap: u32::from(cap), constraint, brought: None }
    }

    /// n = 2^p.
    pub fn n(&self) -> usize {
        1 << self.p
    }
}

/// p, q and cap, and the bytes from K on: 8 below four bytes, then 1.
fn parameters(bytes: &[u8]) -> Result<([u8; 3], &[u8]), Refusal> {
    let &[p, q, cap, _, ..] = bytes else {
        return Err(LENGTH);
    };
    in_range(p, q, cap)?;
    Ok(([p, q, cap], &bytes[3..]))
}

/// A constraint that others follow, and the bytes behind it: 8 for a missing K, K by 2, 8 for "bytes that run out",
/// next states by 2.
fn first_constraint(bytes: &[u8]) -> Result<(Constraint, &[u8]), Refusal> {
    let (states, rest) = number_of_states(bytes)?;
    let (next, rest) = rest.split_at_checked(2 * states).ok_or(LENGTH)?;
    Ok((Constraint::from_bytes(next)?, rest))
}

/// The last constraint of a joined job: the same, and bytes left over after it belong to the later 8.
fn last_constraint(bytes: &[u8]) -> Result<Constraint, Refusal> {
    let (states, next) = number_of_states(bytes)?;
    if next.len() != 2 * states {
        return Err(LENGTH);
    }
    Constraint::from_bytes(next)
}

/// The weights behind a job: none, or one byte a state; 8 for any other number of bytes (request (h)).
fn weights_behind(bytes: &[u8], states: usize) -> Result<Option<Vec<u32>>, Refusal> {
    if bytes.is_empty() {
        return Ok(None);
    }
    if bytes.len() != states {
        return Err(LENGTH);
    }
    Ok(Some(bytes.iter().map(|weight| u32::from(*weight)).collect()))
}

/// K and the bytes behind it: 8 for a missing K, then 2 if it is not 1 to 16.
fn number_of_states(bytes: &[u8]) -> Result<(usize, &[u8]), Refusal> {
    let (k, rest) = bytes.split_first().ok_or(LENGTH)?;
    let states = usize::from(*k);
    if !(1..=MOST_STATES).contains(&states) {
        return Err(CONSTRAINT);
    }
    Ok((states, rest))
}

/// p 1 to 4, q 1 to 8, cap 1 to 16; refusal 1 otherwise.
fn in_range(p: u8, q: u8, cap: u8) -> Result<(), Refusal> {
    let fine = (1..=4).contains(&p) && (1..=8).contains(&q) && (1..=16).contains(&cap);
    if fine {
        Ok(())
    } else {
        Err(PARAMETER)
    }
}
