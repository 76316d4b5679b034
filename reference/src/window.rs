//! "What a window must do", and "Compiling", step 5: the search for the least window.
//!
//! Both are asked of pairs of states. Two paths with equal words end in a pair. A pair is bad for a if its states
//! have edges of one word with different data whose targets can read one and the same a words. Memory m and
//! lookahead a work when no pair is bad for a in which two paths of m edges with equal words end, nor, for any i
//! below m, one in which two such paths of i edges from the start end.

use crate::edges::{members, Edges, Set};
use crate::table::Table;

/// The most that m and a may be.
pub const MOST: usize = 15;

/// A symmetric set of pairs of states: at place s the partners of s.
type Pairs = Vec<Set>;

/// Pasts and bad pairs of a table, worked out as far as they were asked for.
pub struct Search {
    edges: Edges,
    /// Pairs in which two paths of m edges with equal words end, for the greatest m so far.
    from_any: Pairs,
    /// The same for paths from the start.
    from_start: Pairs,
    /// The pairs of paths from the start of fewer than m edges.
    begun: Pairs,
    /// At place m the pairs that must not be bad.
    pasts: Vec<Pairs>,
    /// Pairs that can read one and the same a words, for the greatest a so far.
    readers: Pairs,
    /// At place a the pairs that are bad for a.
    bad: Vec<Pairs>,
}

impl Search {
    pub fn of(table: &Table) -> Search {
        let edges = Edges::of(table);
        let none = vec![0; edges.states];
        let every = vec![edges.all(); edges.states];
        let mut start = none.clone();
        start[0] = 1;
        Search {
            bad: vec![bad_pairs(&edges, &every)],
            edges,
            from_any: every.clone(),
            from_start: start,
            begun: none,
            pasts: vec![every.clone()],
            readers: every,
        }
    }

    /// Memory m and lookahead a do what a window must.
    pub fn works(&mut self, m: usize, a: usize) -> bool {
        while self.pasts.len() <= m {
            self.lengthen_past();
        }
        while self.bad.len() <= a {
            self.lengthen_ahead();
        }
        self.pasts[m].iter().zip(&self.bad[a]).all(|(past, bad)| past & bad == 0)
    }

    /// The working pair with least m + a, then least a.
    pub fn least(&mut self) -> Option<(usize, usize)> {
        for sum in 0..=2 * MOST {
            for a in sum.saturating_sub(MOST)..=sum.min(MOST) {
                if self.works(sum - a, a) {
                    return Some((sum - a, a));
                }
            }
        }
        None
    }

    /// From the past of m to that of m + 1.
    fn lengthen_past(&mut self) {
        self.begun = joined(&self.begun, &self.from_start);
        self.from_start = ends(&self.edges, &self.from_start);
        self.from_any = ends(&self.edges, &self.from_any);
        self.pasts.push(joined(&self.begun, &self.from_any));
    }

    /// From lookahead a to a + 1.
    fn lengthen_ahead(&mut self) {
        self.readers = beginnings(&self.edges, &self.readers);
        self.bad.push(bad_pairs(&self.edges, &self.readers));
    }
}

/// The pairs of either set.
fn joined(one: &Pairs, other: &Pairs) -> Pairs {
    one.iter().zip(other).map(|(a, b)| a | b).collect()
}

/// The pairs to which two edges of one word lead from a pair of the set.
fn ends(edges: &Edges, pairs: &Pairs) -> Pairs {
    let mut found = vec![0; edges.states];
    for (s, partners) in pairs.iter().enumerate() {
        for word in edges.words[s].iter().copied() {
            let partners = edges.after(*partners, word);
            for next in members(edges.targets[word][s]) {
                found[next] |= partners;
            }
        }
    }
    found
}

/// The pairs from which two edges of one word lead to a pair of the set.
fn beginnings(edges: &Edges, pairs: &Pairs) -> Pairs {
    let mut found = vec![0; edges.states];
    for (s, found) in found.iter_mut().enumerate() {
        for word in edges.words[s].iter().copied() {
            let partners = members(edges.targets[word][s]).fold(0, |set, next| set | pairs[next]);
            *found |= edges.before(partners, word);
        }
    }
    found
}

/// The pairs from which two edges of one word with different data lead to a pair of readers.
fn bad_pairs(edges: &Edges, readers: &Pairs) -> Pairs {
    let mut found = vec![0; edges.states];
    for (s, found) in found.iter_mut().enumerate() {
        for one in &edges.out[s] {
            let close = edges.before(readers[one.next], one.word) & !*found;
            for t in members(close) {
                let differs = |other: &crate::edges::Out| {
                    other.word == one.word && other.datum != one.datum && readers[one.next] >> other.next & 1 == 1
                };
                if edges.out[t].iter().any(differs) {
                    *found |= 1 << t;
                }
            }
        }
    }
    found
}
