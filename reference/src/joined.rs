//! "Two constraints on one medium" (request (a)): joining two constraints.

use crate::answer::{Refusal, PAIRS};
use crate::constraint::{Constraint, MOST_STATES};

/// A state of the first constraint beside one of the second.
pub type Pair = (u8, u8);

/// The joined constraint, whose states are the pairs by their numbers. Refusal 14 "for more than 16 pairs".
pub fn join(first: &Constraint, second: &Constraint) -> Result<Constraint, Refusal> {
    let pairs = pairs(first, second);
    if pairs.len() > MOST_STATES {
        return Err(PAIRS);
    }
    let number = |pair: Pair| pairs.iter().position(|other| *other == pair).map(|number| number as u8);
    let row = |pair: &Pair| [0, 1].map(|bit| step(first, second, *pair, bit).and_then(number));
    Ok(Constraint { next: pairs.iter().map(row).collect() })
}

/// "The pairs reachable from both states 0, numbered as first met, walking pairs in number order, bit 0 before
/// bit 1", however many they are.
pub fn pairs(first: &Constraint, second: &Constraint) -> Vec<Pair> {
    let mut met = vec![(0, 0)];
    let mut walked = 0;
    while walked < met.len() {
        for next in [0, 1].map(|bit| step(first, second, met[walked], bit)).into_iter().flatten() {
            if !met.contains(&next) {
                met.push(next);
            }
        }
        walked += 1;
    }
    met
}

/// "A bit is allowed when both constraints allow it": the pair after it, or none.
fn step(first: &Constraint, second: &Constraint, (one, other): Pair, bit: usize) -> Option<Pair> {
    Some((first.next[usize::from(one)][bit]?, second.next[usize::from(other)][bit]?))
}
