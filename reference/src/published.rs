//! Tables as they were published.
//!
//! Each table stands below as its source prints it, one line a state: for each datum in rising order the word in
//! binary and the next state. The first state starts. The constraint start is the lowest from which every recording
//! obeys, the window the smallest that works (least m + a, then least a), the tail datum 0 (request (e)).
//!
//! The (2,7) codes of IBM and of Xerox are published as code words for strings of data bits. A data bit's word is known
//! when its string is whole, so their machines write each word late: see `Late`.

use crate::accept::accept;
use crate::constraint::Constraint;
use crate::record::Record;
use crate::table::{Entry, Table};
use crate::window::Search;

struct Published {
    name: &'static str,
    run_length: (u8, u8),
    p: usize,
    q: usize,
    states: &'static str,
    rows: &'static [&'static str],
}

/// MFM; the final encoding table of Adler, Coppersmith and Hassner (Table XVI); the (1,7) codes of Adler, Hassner and
/// Moussouris and of Jacoby as finite-state machines (Tables IV and V of Gallopoulos, Heegard and Siegel).
const TABLES: [Published; 4] = [
    Published { name: "mfm-1-3", run_length: (1, 3), p: 1, q: 2, states: "0 1", rows: &["00/1 01/0", "10/1 01/0"] },
    Published {
        name: "ach-2-7",
        run_length: (2, 7),
        p: 1,
        q: 2,
        states: "0^1 0^2 1^1 2^2 2^3 2^4 4^3",
        rows: &[
            "00/2^2 00/2^4",
            "00/1^1 00/2^3",
            "01/0^2 01/0^1",
            "10/0^2 10/0^1",
            "00/1^1 10/1^1",
            "00/2^2 00/4^3",
            "00/2^2 10/1^1",
        ],
    },
    Published {
        name: "ahm-1-7",
        run_length: (1, 7),
        p: 2,
        q: 3,
        states: "a b c d v",
        rows: &[
            "101/d 101/c 101/v 100/v",
            "100/d 100/c 100/b 100/a",
            "001/d 001/c 001/v 010/v",
            "010/d 010/c 010/b 010/a",
            "000/d 000/c 000/b 000/a",
        ],
    },
    Published {
        name: "jacoby-1-7",
        run_length: (1, 7),
        p: 2,
        q: 3,
        states: "a b c d v",
        rows: &[
            "101/v 100/v 101/c 101/d",
            "100/a 100/b 100/c 100/d",
            "001/v 010/v 001/c 001/d",
            "010/a 010/b 010/c 010/d",
            "000/a 000/b 000/c 000/d",
        ],
    },
];

impl Published {
    fn entry(&self, text: &str) -> Option<Entry> {
        let (word, next) = text.split_once('/')?;
        let next = self.states.split(' ').position(|name| name == next)?;
        Some(Entry { word: u8::from_str_radix(word, 2).ok()?, next })
    }

    fn table(&self) -> Option<Table> {
        let row = |line: &&str| line.split(' ').map(|text| self.entry(text)).collect::<Option<Vec<Entry>>>();
        Some(Table { rows: self.rows.iter().map(row).collect::<Option<_>>()? })
    }

    fn record(&self) -> Option<Record> {
        record(self.run_length, self.p, self.q, self.table()?)
    }
}

/// A code of code words for strings of data bits, p 1 and q 2, whose machine writes each word as many words late as its
/// longest string has bits beyond the first.
struct Late {
    name: &'static str,
    run_length: (u8, u8),
    /// Strings and their code words: where the words before end in two zeros or more, and where not.
    strings: &'static [(&'static str, &'static str, &'static str)],
    /// The words that are written first, as though a string with these words had just ended.
    first: &'static str,
}

/// Table II of Gallopoulos, Heegard and Siegel; X is 1 where the words before end in two zeros or more.
const LATE: [Late; 2] = [
    Late {
        name: "ibm-2-7",
        run_length: (2, 7),
        strings: &[
            ("10", "0100", "0100"),
            ("11", "1000", "1000"),
            ("000", "000100", "000100"),
            ("010", "100100", "100100"),
            ("011", "001000", "001000"),
            ("0010", "00100100", "00100100"),
            ("0011", "00001000", "00001000"),
        ],
        first: "000100",
    },
    Late {
        name: "xerox-2-7",
        run_length: (2, 7),
        strings: &[("1", "10", "00"), ("01", "0001", "0001"), ("001", "000010", "000010"), ("000", "001001", "001001")],
        first: "0001",
    },
];

/// What a late machine keeps: the bits that are known and not yet written, in how many zeros the known bits end (2 for
/// more), and the data bits since the last whole string.
#[derive(Clone, PartialEq, Eq)]
struct Kept {
    bits: String,
    zeros: usize,
    data: String,
}

/// In how many zeros bits end, 2 for more.
fn zeros(bits: &str) -> usize {
    bits.bytes().rev().take(2).take_while(|bit| *bit == b'0').count()
}

impl Late {
    /// The word that is written at a datum, and what is kept then.
    fn step(&self, kept: &Kept, datum: usize) -> Option<(u8, Kept)> {
        let mut next = kept.clone();
        next.data.push(if datum == 0 { '0' } else { '1' });
        if let Some((_, open, shut)) = self.strings.iter().find(|(data, _, _)| *data == next.data) {
            next.bits.push_str(if next.zeros == 2 { open } else { shut });
            next.zeros = zeros(&next.bits);
            next.data.clear();
        }
        let word = u8::from_str_radix(next.bits.get(..2)?, 2).ok()?;
        next.bits.drain(..2);
        Some((word, next))
    }

    /// The states in the order in which they are met from the start, datum 0 first.
    fn table(&self) -> Option<Table> {
        let first = Kept { bits: self.first.to_string(), zeros: zeros(self.first), data: String::new() };
        let mut met = vec![first];
        let mut rows = Vec::new();
        while rows.len() < met.len() {
            let mut row = Vec::new();
            for datum in 0..2 {
                let (word, kept) = self.step(&met[rows.len()].clone(), datum)?;
                let next = met.iter().position(|other| *other == kept).unwrap_or(met.len());
                if next == met.len() {
                    met.push(kept);
                }
                row.push(Entry { word, next });
            }
            rows.push(row);
        }
        Some(Table { rows })
    }

    fn record(&self) -> Option<Record> {
        record(self.run_length, 1, 2, self.table()?)
    }
}

/// The record of a table, or none if no constraint start or no window will do.
fn record(run_length: (u8, u8), p: usize, q: usize, table: Table) -> Option<Record> {
    let (m, a) = Search::of(&table).least()?;
    let constraint = Constraint::run_length(run_length.0, run_length.1);
    let with = |start| Record { p, q, m, a, start, tail: 0, constraint: constraint.clone(), table: table.clone() };
    (0..constraint.states()).map(with).find(|record| accept(record).is_ok())
}

/// Every published table by name with its record, or none if no constraint start or no window will do.
pub fn records() -> impl Iterator<Item = (&'static str, Option<Record>)> {
    let printed = TABLES.iter().map(|published| (published.name, published.record()));
    let late = LATE.iter().map(|late| (late.name, late.record()));
    printed.chain(late)
}

/// The record of the published table of this name.
pub fn named(name: &str) -> Option<Record> {
    records().find(|(other, _)| *other == name)?.1
}
