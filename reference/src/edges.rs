//! The edges of a table sorted by word, with sets of states as the bits of a `u128`: bit s stands for state s.

use crate::table::Table;

/// A set of states.
pub type Set = u128;

/// The members of a set in rising order.
pub fn members(mut set: Set) -> impl Iterator<Item = usize> {
    std::iter::from_fn(move || {
        if set == 0 {
            return None;
        }
        let lowest = set.trailing_zeros() as usize;
        set &= set - 1;
        Some(lowest)
    })
}

/// An edge seen from its state: which of the words in use, the datum, the target.
#[derive(Clone, Copy, Debug)]
pub struct Out {
    pub word: usize,
    pub datum: usize,
    pub next: usize,
}

/// The edges of a table. The words in use are numbered from 0, so that tables of few words stay small.
pub struct Edges {
    pub states: usize,
    /// For each byte the number of the word, if it is in use.
    number: Vec<Option<usize>>,
    /// For each word in use, the states with an edge of that word.
    pub having: Vec<Set>,
    /// For each word in use and each state, the targets of its edges of that word.
    pub targets: Vec<Vec<Set>>,
    /// For each state its edges, in order of the data.
    pub out: Vec<Vec<Out>>,
    /// For each state the words of its edges, each once.
    pub words: Vec<Vec<usize>>,
}

impl Edges {
    pub fn of(table: &Table) -> Edges {
        let states = table.states();
        let mut edges = Edges {
            states,
            number: vec![None; 256],
            having: Vec::new(),
            targets: Vec::new(),
            out: vec![Vec::new(); states],
            words: vec![Vec::new(); states],
        };
        for (s, row) in table.rows.iter().enumerate() {
            for (datum, entry) in row.iter().enumerate() {
                let word = edges.numbered(entry.word);
                edges.add(s, Out { word, datum, next: entry.next });
            }
        }
        edges
    }

    /// The number of a word, given now if it has none yet.
    fn numbered(&mut self, word: u8) -> usize {
        if let Some(number) = self.number[usize::from(word)] {
            return number;
        }
        let number = self.having.len();
        self.number[usize::from(word)] = Some(number);
        self.having.push(0);
        self.targets.push(vec![0; self.states]);
        number
    }

    fn add(&mut self, s: usize, edge: Out) {
        if self.having[edge.word] >> s & 1 == 0 {
            self.words[s].push(edge.word);
        }
        self.having[edge.word] |= 1 << s;
        self.targets[edge.word][s] |= 1 << edge.next;
        self.out[s].push(edge);
    }

    /// The number of a word in use.
    pub fn word(&self, word: u8) -> Option<usize> {
        self.number[usize::from(word)]
    }

    /// All states.
    pub fn all(&self) -> Set {
        Set::MAX >> (Set::BITS as usize - self.states)
    }

    /// The states to which edges of this word lead from a set.
    pub fn after(&self, from: Set, word: usize) -> Set {
        let targets = &self.targets[word];
        members(from & self.having[word]).fold(0, |reached, s| reached | targets[s])
    }

    /// The states with an edge of this word into a set.
    pub fn before(&self, into: Set, word: usize) -> Set {
        let targets = &self.targets[word];
        let leads = |s: &usize| targets[*s] & into != 0;
        members(self.having[word]).filter(leads).fold(0, |found, s| found | 1 << s)
    }
}
