//! The accepted record whose check takes longest: records of several kinds are timed, and then changed at random.
use crate::compare::Numbers;
use crate::speed::{medians, seconds};
use crate::{families, library};
use reference::record::Record;
use std::time::{Duration, Instant};

/// The slowest accepted record of one kind so far, in bytes; none at first.
struct Slowest {
    kind: String,
    record: Vec<u8>,
    tried: u32,
    accepted: u32,
}

/// How long one check of the record takes.
fn time(record: &[u8]) -> f64 {
    seconds(|| _ = library::check(record))
}

/// A check of the first record takes longer than one of the second: the least of five times, taken in turn.
fn slower(one: &[u8], other: &[u8]) -> bool {
    let (mut ours, mut theirs) = (time(one), time(other));
    for _ in 0..4 {
        if ours < 0.95 * theirs {
            return false;
        }
        (ours, theirs) = (ours.min(time(one)), theirs.min(time(other)));
    }
    ours > theirs
}

impl Slowest {
    fn of(kind: &str) -> Self {
        Slowest { kind: kind.to_owned(), record: Vec::new(), tried: 0, accepted: 0 }
    }

    /// Keeps the record if it is accepted and slower than the slowest.
    fn offer(&mut self, record: &Record) {
        let record = record.pack();
        self.tried += 1;
        if library::check(&record).0 == 0 {
            self.accepted += 1;
            if slower(&record, &self.record) {
                self.record = record;
            }
        }
    }

    /// Offers the records in turn until the time is over.
    fn offer_all(&mut self, records: &[Record], end: Instant) {
        let in_time = |_: &&Record| Instant::now() < end;
        records.iter().take_while(in_time).for_each(|record| self.offer(record));
    }

    /// Changes the slowest record at random until the time is over, going on from each that is slower.
    fn climb(&mut self, numbers: &mut Numbers, end: Instant) {
        while Instant::now() < end {
            let Ok(record) = Record::parse(&self.record) else {
                return;
            };
            self.offer(&changed(numbers, &record));
        }
    }

    fn print(&self, seconds: f64) {
        let record = Record::parse(&self.record).expect("accepted");
        let h = record.header();
        println!("{:9.1} us  {}, {} of {} accepted", seconds * 1e6, self.kind, self.accepted, self.tried);
        let words = spread(&record);
        println!("              {} states, p {}, q {}, m {}, a {}, K {}; {words}", h.states, h.p, h.q, h.m, h.a, h.k);
    }
}

/// How often the most frequent words of a record stand in its table.
fn spread(record: &Record) -> String {
    let mut counts = [0; 256];
    record.table.rows.iter().flatten().for_each(|entry| counts[usize::from(entry.word)] += 1);
    counts.sort_by(|a, b| b.cmp(a));
    format!("words on {}, {}, {} .. entries", counts[0], counts[1], counts[2])
}

/// The record with one to three changes: another word, another next state, a copied state, two states exchanged.
fn changed(numbers: &mut Numbers, record: &Record) -> Record {
    let mut record = record.clone();
    let (states, data, words) = (record.table.states(), 1 << record.p, 1 << record.q);
    let rows = &mut record.table.rows;
    for _ in 0..1 + numbers.below(3) {
        let [s, t] = [(); 2].map(|_| numbers.below(states));
        let [d, e] = [(); 2].map(|_| numbers.below(data));
        match numbers.below(6) {
            0 => rows[s][d].word = numbers.below(words) as u8,
            1 => rows[s][d].word = rows[t][e].word,
            2 => rows[s][d].next = t,
            3 => rows[s][d] = rows[t][e],
            4 => rows[s] = rows[t].clone(),
            _ => exchange(rows, s, t),
        }
    }
    record
}

/// Gives two states each other's number.
fn exchange(rows: &mut [Vec<reference::table::Entry>], s: usize, t: usize) {
    rows.swap(s, t);
    for entry in rows.iter_mut().flatten() {
        entry.next = match entry.next {
            next if next == s => t,
            next if next == t => s,
            next => next,
        };
    }
}

/// Searches for as long as it is told, a third of it in records that are given and two thirds in changed ones; then
/// prints the slowest of each kind, timed in turn.
pub fn for_seconds(seconds: u64) {
    let mut numbers = Numbers::new();
    let families = families::all(&mut numbers);
    let (start, share) = (Instant::now(), Duration::from_secs(seconds) / 3 / families.len() as u32);
    let mut kinds = Vec::new();
    for (number, (kind, records)) in (1..).zip(&families) {
        let mut given = Slowest::of(kind);
        given.offer_all(records, start + share * number);
        kinds.push(given);
    }
    let start = Instant::now();
    for number in 0..families.len() {
        let mut changing = Slowest::of(&format!("{}, changed at random", kinds[number].kind));
        changing.record = kinds[number].record.clone();
        changing.climb(&mut numbers, start + share * 2 * (number as u32 + 1));
        kinds.push(changing);
    }
    kinds.retain(|kind| !kind.record.is_empty());
    let mut checks: Vec<_> = kinds.iter().map(|kind| || assert_eq!(library::check(&kind.record).0, 0)).collect();
    let times = medians(&mut checks.iter_mut().map(|check| check as &mut dyn FnMut()).collect::<Vec<_>>());
    kinds.iter().zip(times).for_each(|(kind, time)| kind.print(time));
}
