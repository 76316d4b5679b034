//! Request (f), "Spreading a scratch": D recordings woven into one list of places, and the unweaving.

use crate::answer::{Refusal, DEPTH};

/// The least D: "D from 2 to 16".
pub const LEAST: u64 = 2;

/// The greatest D.
pub const MOST: u64 = 16;

/// D recordings, "each of the same number of words".
#[derive(Clone, Copy, Debug, PartialEq, Eq)]
pub struct Recordings {
    depth: usize,
    /// The words of each.
    words: usize,
}

impl Recordings {
    /// D recordings of so many words together; refusal 16 for "D out of range or a length that D does not divide". D is
    /// any number of 64 bits, and all of them are asked. Every D divides 0.
    pub fn of(depth: u64, length: usize) -> Result<Recordings, Refusal> {
        if !(LEAST..=MOST).contains(&depth) {
            return Err(DEPTH);
        }
        let depth = depth as usize;
        let (words, left_over) = (length / depth, length % depth);
        if left_over > 0 {
            return Err(DEPTH);
        }
        Ok(Recordings { depth, words })
    }

    /// Where word j of recording r stands while the recordings are "handed over one after the other".
    fn handed_over(self, j: usize, r: usize) -> usize {
        r * self.words + j
    }

    /// "Word j of recording r goes to place j × D + r."
    fn place(self, j: usize, r: usize) -> usize {
        j * self.depth + r
    }

    /// The numbers j and r of every word.
    fn every(self) -> impl Iterator<Item = (usize, usize)> {
        (0..self.depth).flat_map(move |r| (0..self.words).map(move |j| (j, r)))
    }

    /// The places of the recordings. The words are as many as were counted; they may be any bytes.
    pub fn weave(self, words: &[u8]) -> Vec<u8> {
        let mut places = vec![0; words.len()];
        for (j, r) in self.every() {
            places[self.place(j, r)] = words[self.handed_over(j, r)];
        }
        places
    }

    /// The recordings of the places, one after the other.
    pub fn unweave(self, places: &[u8]) -> Vec<u8> {
        let mut words = vec![0; places.len()];
        for (j, r) in self.every() {
            words[self.handed_over(j, r)] = places[self.place(j, r)];
        }
        words
    }
}
