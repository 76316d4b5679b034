//! The kinds of records among which `slowest` searches.
use crate::compare::Numbers;
use crate::hostile::{late_words, long_pairs, record};
use crate::sweep;
use reference::record::Record;
use std::collections::BTreeSet;

/// Every kind by its name.
pub fn all(numbers: &mut Numbers) -> Vec<(&'static str, Vec<Record>)> {
    let compiled = compiled();
    let raised = compiled.iter().flat_map(raised).collect();
    vec![
        ("run-length jobs", compiled),
        ("the same with m 15, a 15 or both", raised),
        ("shift registers", registers()),
        ("registers with few ones", few_ones()),
        ("counters", counters(numbers)),
        ("late words", vec![late_words()]),
        ("long pairs", vec![long_pairs()]),
    ]
}

/// The different records of all run-length jobs, those of most states first.
fn compiled() -> Vec<Record> {
    let records = sweep::jobs().map(|job| reference::calls::compile_run_length(&job, 65535).output);
    let different: BTreeSet<Vec<u8>> = records.filter(|record| !record.is_empty()).collect();
    let mut records: Vec<Record> = different.iter().map(|bytes| Record::parse(bytes).expect("a record")).collect();
    records.sort_by_key(|record| std::cmp::Reverse(record.table.states()));
    records
}

/// The record with longer windows: one that works still works when m or a grows.
fn raised(record: &Record) -> [Record; 3] {
    [(15, 15), (15, record.a), (record.m, 15)].map(|(m, a)| Record { m, a, ..record.clone() })
}

/// The state is the last 7 bits that were held back, so many of each datum; the word shows the bits that leave, and
/// the rest of the datum or all of it.
fn registers() -> Vec<Record> {
    let held = (1..=4).flat_map(|p| (1..=p).map(move |held| (p, held)));
    let shown = held.flat_map(|(p, held)| [p - held, p].map(|shown| (p, held, shown)));
    let register = |(p, held, shown): (usize, usize, usize)| {
        record(128, [p, shown + held, 16], |s, d| {
            (d >> (p - shown) << held | s >> (7 - held), (s << held | d % (1 << held)) % 128)
        })
    };
    shown.map(register).collect()
}

/// The state is a register of so many bits of which few are 1. Data 14 and 15 are written by one word, and 15 puts in
/// a 1, where it may; the word also shows the bit that leaves.
fn few_ones() -> Vec<Record> {
    let sizes = (7..=15).flat_map(|length| (1..=length).map(move |ones| (length, ones)));
    let contents = |(length, ones)| {
        let contents: Vec<usize> = (0..1usize << length).filter(|x: &usize| x.count_ones() <= ones).collect();
        (contents, length, ones)
    };
    let fitting = sizes.map(contents).filter(|(contents, ..)| contents.len() <= 128);
    let register = |(contents, length, ones): (Vec<usize>, u32, u32)| {
        record(contents.len(), [4, 5, 16], |s, d| {
            let rest = contents[s] << 1 & ((1 << length) - 1);
            let room = rest.count_ones() < ones;
            let next = contents.binary_search(&(rest | usize::from(room && d == 15))).expect("a content");
            (contents[s] >> (length - 1) << 4 | if room { d.min(14) } else { d }, next)
        })
    };
    fitting.map(register).collect()
}

/// Counters of 128 states, numbered at random, that show the datum and, at some states only, which state it is.
fn counters(numbers: &mut Numbers) -> Vec<Record> {
    let sizes = (1..=4).flat_map(|p| (0..4).flat_map(move |step| (0..3).map(move |marks| (p, step, marks))));
    let mut counter = |(p, step, marks): (usize, usize, usize)| {
        let mut state: Vec<usize> = (0..128).collect();
        (1..128).for_each(|s| state.swap(s, numbers.below(s + 1)));
        let place = |s| state.iter().position(|&other| other == s).expect("a state");
        record(128, [p, p + 2, 16], |s, d| {
            let at = place(s);
            let mark = if at < 128 - marks { 0 } else { 128 - at };
            (mark << p | d, state[(at + 1 + step * d) % 128])
        })
    };
    sizes.map(&mut counter).collect()
}
