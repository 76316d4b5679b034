//! The quick ways of this implementation against the document's own words, read slowly on small cases.

use reference::accept::load;
use reference::calls::{compile_run_length, decode_loaded, encode_loaded};
use reference::job::Job;
use reference::table::Table;
use reference::vectors::foreign;
use reference::vectors::jobs::{compiling_run_length, general};
use reference::vectors::random::Random;
use reference::weights::{counts, greatest};
use reference::window::Search;
use std::collections::BTreeMap;

/// All paths of so many edges from a state, as lists of words and of data.
fn paths(table: &Table, from: usize, edges: usize) -> Vec<(Vec<u8>, Vec<usize>)> {
    if edges == 0 {
        return vec![(vec![], vec![])];
    }
    let mut found = vec![];
    for (datum, entry) in table.rows[from].iter().enumerate() {
        for (words, data) in paths(table, entry.next, edges - 1) {
            found.push(([vec![entry.word], words].concat(), [vec![datum], data].concat()));
        }
    }
    found
}

/// Any two of the paths with equal words carry equal data on one edge.
fn agree(paths: impl Iterator<Item = (Vec<u8>, Vec<usize>)>, edge: usize) -> bool {
    let mut seen = BTreeMap::new();
    paths.into_iter().all(|(words, data)| *seen.entry(words).or_insert(data[edge]) == data[edge])
}

/// "What a window must do", word by word.
fn works(table: &Table, m: usize, a: usize) -> bool {
    let any = (0..table.states()).flat_map(|s| paths(table, s, m + 1 + a));
    agree(any, m) && (0..m).all(|i| agree(paths(table, 0, i + 1 + a).into_iter(), i))
}

#[test]
fn windows_of_small_tables() {
    let mut random = Random::seeded(7);
    let (mut yes, mut no) = (0, 0);
    for _ in 0..400 {
        let record = foreign::any(&mut random);
        if record.table.states() > 8 || record.p > 1 {
            continue;
        }
        let mut search = Search::of(&record.table);
        for (m, a) in (0..4).flat_map(|m| (0..4).map(move |a| (m, a))) {
            let expected = works(&record.table, m, a);
            assert_eq!(search.works(m, a), expected, "{record:?} {m} {a}");
            if expected {
                yes += 1;
            } else {
                no += 1;
            }
        }
    }
    assert!(yes > 100 && no > 100, "{yes} {no}");
}

/// A ring of L states needs m + 1 + a at least L - 1, as long as some words without the mark of state 0.
#[test]
fn windows_of_rings() {
    for length in 2..=34 {
        let sum: usize = length - 2;
        let least = if sum > 30 { None } else { Some((sum.min(15), sum.saturating_sub(15))) };
        assert_eq!(Search::of(&foreign::ring(length).table).least(), least);
    }
}

#[test]
fn recordings_decode_and_clear_places_stand() {
    let mut random = Random::seeded(9);
    for _ in 0..150 {
        let record = load(&compiling_run_length(&mut random).1).unwrap();
        let (m, a) = (record.m, record.a);
        let blocks = random.bytes(60, 1 << record.p);
        let words = encode_loaded(&record, &blocks, 60 + a).output;
        assert_eq!(decode_loaded(&record, &words, 60).output, blocks);
        let cut = random.below(20);
        let place = random.within(cut, 50);
        let mut late = words[cut..].to_vec();
        late[place - cut] ^= random.below(1 << record.q) as u8;
        let read = decode_loaded(&record, &late, 60).output;
        for j in m..read.len() {
            if j > place - cut + m || j + a < place - cut {
                assert_eq!(read[j], blocks[j + cut]);
            }
        }
    }
}

#[test]
fn compiled_records_are_accepted() {
    let mut random = Random::seeded(10);
    for _ in 0..300 {
        let answer = reference::calls::compile_job(&general(&mut random), 4096);
        assert!(answer.refusal != 0 || load(&answer.output).is_ok());
    }
    for cap in 1..=16 {
        let answer = compile_run_length(&[1, 7, 2, 3, cap], 4096);
        assert!(answer.refusal != 0 || load(&answer.output).is_ok());
    }
}

/// All vectors of entries up to cap that satisfy A v >= n v have no entry above the greatest one's.
#[test]
fn the_greatest_weights() {
    for bytes in [[0, 1, 2, 3, 3], [1, 2, 1, 2, 3], [1, 3, 1, 2, 3], [0, 2, 3, 4, 3]] {
        let job = Job::run_length(&bytes).unwrap();
        let (states, base) = (job.constraint.states(), job.cap as usize + 1);
        let counts = counts(&job.constraint.powers(job.q));
        let mut most = vec![0; states];
        for number in 0..base.pow(states as u32) {
            let vector: Vec<u32> = (0..states).map(|s| (number / base.pow(s as u32) % base) as u32).collect();
            let sum = |s: usize| (0..states).map(|t| counts[s][t] * vector[t]).sum::<u32>();
            if (0..states).all(|s| sum(s) >= job.n() as u32 * vector[s]) {
                most = most.iter().zip(&vector).map(|(a, b)| *a.max(b)).collect();
            }
        }
        assert_eq!(greatest(&job), most);
    }
}
