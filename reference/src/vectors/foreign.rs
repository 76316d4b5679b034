//! Tables that no compiler made, each with the least window that works, or 15 and 15 if none does.

use super::random::Random;
use crate::constraint::Constraint;
use crate::record::Record;
use crate::table::{Entry, Table};
use crate::window::{Search, MOST};

/// A foreign record of some family.
pub fn any(random: &mut Random) -> Record {
    match random.below(4) {
        0 => shift_register(random),
        3 => led_into(random),
        1 => {
            let length = random.within(2, 34);
            ring(length)
        }
        _ => scattered(random),
    }
}

/// A record with these rows under the constraint of one state that allows every bit.
fn free(p: usize, q: usize, rows: Vec<Vec<Entry>>) -> Record {
    let constraint = Constraint { next: vec![[Some(0), Some(0)]] };
    with_least(Record { p, q, m: 0, a: 0, start: 0, tail: 0, constraint, table: Table { rows } })
}

/// The record with the least window of its table, or 15 and 15.
pub fn with_least(mut record: Record) -> Record {
    (record.m, record.a) = Search::of(&record.table).least().unwrap_or((MOST, MOST));
    record
}

/// States are the last few data bits; each bit of the word is a sum of some of them, so that the datum shows late,
/// early, or never.
fn shift_register(random: &mut Random) -> Record {
    let depth = random.within(1, 5);
    let q = random.within(1, 3);
    let masks: Vec<usize> = (0..q).map(|_| random.within(1, (2 << depth) - 1)).collect();
    let sparse = random.once_in(2);
    let entry = |bits: usize| {
        let bit = |mask: &usize| {
            let seen = if sparse { bits & mask & mask.wrapping_neg() } else { bits & mask };
            seen.count_ones() as usize & 1
        };
        let word = masks.iter().fold(0, |word, mask| word << 1 | bit(mask)) as u8;
        Entry { word, next: bits & ((1 << depth) - 1) }
    };
    free(1, q, (0..1 << depth).map(|s| vec![entry(s << 1), entry(s << 1 | 1)]).collect())
}

/// States in a ring. Words tell the place only at state 0; elsewhere odd states have their data crossed. The
/// longer the ring, the more words a window needs: up to 15 and 15 for 32 states, and none beyond.
pub fn ring(length: usize) -> Record {
    let row = |s: usize| {
        let high = if s == 0 { 2 } else { 0 };
        let crossed = (s % 2) as u8;
        (0..2).map(|datum| Entry { word: high | datum ^ crossed, next: (s + 1) % length }).collect()
    };
    free(1, 2, (0..length).map(row).collect())
}

/// Random targets and words; mostly the words of a state differ.
fn scattered(random: &mut Random) -> Record {
    let p = random.within(1, 2);
    let q = random.within(p, p + 2);
    let states = random.within(1, 7);
    let rows = (0..states).map(|_| scattered_row(random, p, q, states)).collect();
    free(p, q, rows)
}

/// A random table behind a few states that lead in and are never met again. Only paths from the start pass them, so
/// that what they leave open rules a window out by its second condition alone.
fn led_into(random: &mut Random) -> Record {
    let body = scattered(random);
    let more = random.within(1, 3);
    let mut rows = Vec::new();
    for s in 0..more {
        let next = |random: &mut Random| random.within(s + 1, more + body.table.states() - 1).min(s + 2);
        let row = scattered_row(random, body.p, body.q, 1);
        rows.push(row.iter().map(|e| Entry { word: e.word, next: next(random) }).collect::<Vec<_>>());
        let (one, other) = (random.below(1 << body.p), random.below(1 << body.p));
        rows[s][one].word = rows[s][other].word;
    }
    let moved = |e: &Entry| Entry { word: e.word, next: e.next + more };
    rows.extend(body.table.rows.iter().map(|row| row.iter().map(moved).collect()));
    free(body.p, body.q, rows)
}

fn scattered_row(random: &mut Random, p: usize, q: usize, states: usize) -> Vec<Entry> {
    let mut words: Vec<u8> = (0..1 << q).map(|word| word as u8).collect();
    random.shuffle(&mut words);
    if random.once_in(8) {
        words[0] = words[1];
    }
    words[..1 << p].iter().map(|word| Entry { word: *word, next: random.below(states) }).collect()
}

/// The record with the data of each state exchanged at random and the states but the first renumbered.
pub fn shuffled(random: &mut Random, record: &Record) -> Record {
    let states = record.table.states();
    let mut number: Vec<usize> = (0..states).collect();
    random.shuffle(&mut number[1..]);
    let mut rows = vec![Vec::new(); states];
    for (s, row) in record.table.rows.iter().enumerate() {
        let mut row: Vec<Entry> = row.iter().map(|e| Entry { word: e.word, next: number[e.next] }).collect();
        if random.once_in(2) {
            random.shuffle(&mut row);
        }
        rows[number[s]] = row;
    }
    with_least(Record { table: Table { rows }, ..record.clone() })
}

/// The record with one more state that nothing leads to: a copy of another, with one entry changed.
pub fn with_unreachable(random: &mut Random, record: &Record) -> Record {
    let mut more = record.clone();
    let states = more.table.states();
    let mut row = random.pick(&more.table.rows).clone();
    let place = random.below(row.len());
    row[place] = Entry { word: random.below(1 << record.q) as u8, next: random.below(states + 1) };
    more.table.rows.push(row);
    more
}
