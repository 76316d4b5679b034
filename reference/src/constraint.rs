//! "Constraint and job": constraints and the power table.

use crate::answer::{Refusal, CONSTRAINT};

/// The most states of a constraint.
pub const MOST_STATES: usize = 16;

/// The byte of a job that stands for "none".
pub const NONE: u8 = 255;

/// A constraint: for each state and channel bit a next state or none.
#[derive(Clone, Debug, PartialEq, Eq)]
pub struct Constraint {
    pub next: Vec<[Option<u8>; 2]>,
}

impl Constraint {
    /// The run-length constraint (d, k): states 0 to k are the zeros since the last 1.
    pub fn run_length(d: u8, k: u8) -> Self {
        let zero = |i: u8| if i < k { Some(i + 1) } else { None };
        let one = |i: u8| if i >= d { Some(0) } else { None };
        Constraint { next: (0..=k).map(|i| [zero(i), one(i)]).collect() }
    }

    /// The constraint written in a job, two bytes a state with 255 for none. The bytes are as many as K says.
    pub fn from_bytes(bytes: &[u8]) -> Result<Self, Refusal> {
        let states = bytes.len() / 2;
        let mut next = Vec::with_capacity(states);
        for pair in bytes.chunks_exact(2) {
            next.push([next_state(pair[0], states)?, next_state(pair[1], states)?]);
        }
        Ok(Constraint { next })
    }

    /// K.
    pub fn states(&self) -> usize {
        self.next.len()
    }

    /// The state after a word of q bits, first bit most significant, or none if some bit has no next state.
    pub fn follow(&self, from: usize, word: u8, q: usize) -> Option<usize> {
        let mut state = from;
        for place in (0..q).rev() {
            let bit = usize::from(word >> place & 1);
            state = usize::from(self.next[state][bit]?);
        }
        Some(state)
    }

    /// The power table: for each state, in order of the words, where the word leads.
    pub fn powers(&self, q: usize) -> Vec<Vec<Option<usize>>> {
        let words = 1usize << q;
        let row = |s| (0..words).map(|w| self.follow(s, w as u8, q)).collect();
        (0..self.states()).map(row).collect()
    }
}

/// One next state of a job: 255 for none, else below K; refusal 2 otherwise.
fn next_state(byte: u8, states: usize) -> Result<Option<u8>, Refusal> {
    match byte {
        NONE => Ok(None),
        state if usize::from(state) < states => Ok(Some(state)),
        _ => Err(CONSTRAINT),
    }
}
