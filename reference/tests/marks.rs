//! Request (d), "Two marks": every input that tells, the meaning of the marks written a second time by whole paths, and
//! what holds of them on random words and random damage.

use reference::accept::{accept, load};
use reference::answer::{Answer, BAD_BYTE};
use reference::calls::{decode, decode_loaded, decode_stream, encode, encode_stream};
use reference::encode::words as recorded;
use reference::record::Record;
use reference::streams;
use reference::table::Table;
use reference::vectors::file::{Walk, DECODE, DECODE_STREAM};
use reference::vectors::marks::{telling, two_seven};
use reference::vectors::pool::{Good, Pool};
use reference::vectors::random::Random;
use reference::vectors::{damage, foreign, generate};

/// Room enough for every result here.
const PLENTY: usize = 64;

#[test]
fn every_input_that_tells() {
    for told in telling() {
        let (count, answer) = (told.words.len() as u64, Answer::written(told.blocks.clone()));
        assert_eq!(decode(&told.record, &told.words, told.blocks.len()), answer, "{:?}", told.words);
        let stream = streams::pack(load(&told.record).unwrap().q, &told.words);
        assert_eq!(decode_stream(&told.record, count, &stream, told.blocks.len()), answer, "{:?}", told.words);
    }
    let record = load(&two_seven()).unwrap();
    assert_eq!((record.m, record.a), (0, 3));
}

/// "254 and 255 as blocks to encode are still refusal 11": the blocks of each input that tells, at the first mark.
#[test]
fn marks_are_no_blocks_to_encode() {
    for told in telling() {
        let place = told.blocks.iter().position(|block| *block >= 254).unwrap();
        assert_eq!(encode(&told.record, &told.blocks, PLENTY), Answer::refused(BAD_BYTE, place));
        assert_eq!(encode_stream(&told.record, &told.blocks, PLENTY), Answer::refused(BAD_BYTE, place));
    }
}

/// How often each outcome came: for blocks under m 0, below m and from m on; with a 0 and with more; 254, 255, a datum.
#[derive(Debug, Default)]
struct Counts([[[usize; 3]; 2]; 3]);

impl Counts {
    fn add(&mut self, record: &Record, blocks: &[u8]) {
        for (i, block) in blocks.iter().enumerate() {
            let place = if record.m == 0 { 0 } else { 1 + usize::from(i >= record.m) };
            let outcome = [254, 255].iter().position(|mark| mark == block).unwrap_or(2);
            self.0[place][usize::from(record.a > 0)][outcome] += 1;
        }
    }

    /// Each outcome came at least so often everywhere, but 255 never with a 0.
    fn assert_each(&self, least: usize) {
        for [with_a_0, with_more] in self.0 {
            assert!(with_more.iter().all(|count| *count >= least), "{self:?}");
            assert!(with_a_0[0] >= least && with_a_0[1] == 0 && with_a_0[2] >= least, "{self:?}");
        }
    }
}

/// The data of every path from a state that spells these words.
fn spelling(table: &Table, from: usize, words: &[u8]) -> Vec<Vec<u8>> {
    let Some((word, rest)) = words.split_first() else { return vec![vec![]] };
    let mut found = vec![];
    for (datum, entry) in table.rows[from].iter().enumerate().filter(|(_, entry)| entry.word == *word) {
        let further = spelling(table, entry.next, rest);
        found.extend(further.into_iter().map(|data| [vec![datum as u8], data].concat()));
    }
    found
}

/// Block i by whole paths, from any state over words i - m on, or from state 0 over words 0 on if i < m: 254 if none
/// spells the words up to i, 255 if one does but none spells them up to i + a, else the one datum that all those carry.
fn block(record: &Record, words: &[u8], i: usize) -> u8 {
    let (states, first) = if i < record.m { (1, 0) } else { (record.table.states(), i - record.m) };
    let up_to = |last: usize| (0..states).flat_map(move |s| spelling(&record.table, s, &words[first..=last]));
    if up_to(i).next().is_none() {
        return 254;
    }
    let data: Vec<u8> = up_to(i + record.a).map(|data| data[i - first]).collect();
    assert!(data.iter().all(|datum| *datum == data[0]), "an accepted table has one datum here");
    data.first().map_or(255, |datum| *datum)
}

/// A small table that is accepted, its window the least or up to two wider each way.
fn small(random: &mut Random) -> Record {
    loop {
        let mut record = foreign::any(random);
        record.m += random.below(3);
        record.a += random.below(3);
        if record.m + record.a <= 6 && accept(&record).is_ok() {
            return record;
        }
    }
}

#[test]
fn the_marks_by_whole_paths() {
    let mut random = Random::seeded(41);
    let mut counts = Counts::default();
    for round in 0..4000 {
        let record = small(&mut random);
        let recording = recorded(&record, &random.bytes(10, 1 << record.p));
        let words = match round % 2 {
            0 => random.bytes(recording.len(), 1 << record.q),
            _ => damage::words(&mut random, &recording, record.q),
        };
        let expected: Vec<u8> = (0..words.len().saturating_sub(record.a)).map(|i| block(&record, &words, i)).collect();
        assert_eq!(decode_loaded(&record, &words, PLENTY).output, expected, "{record:?} {words:?}");
        counts.add(&record, &expected);
    }
    counts.assert_each(200);
}

/// Good records of every kind and length.
fn records(random: &mut Random) -> Vec<Record> {
    let Pool { small, middle, large } = Pool::gather(random, 1);
    small.into_iter().chain(middle).chain(large).map(|good: Good| good.record).collect()
}

/// "With a = 0 the mark 255 no longer appears."
#[test]
fn with_a_0_only_254_comes() {
    let mut random = Random::seeded(42);
    let mut dark = 0;
    for record in records(&mut random).iter().filter(|record| record.a == 0) {
        for _ in 0..20 {
            let words = random.bytes(PLENTY, 1 << record.q);
            let blocks = decode_loaded(record, &words, PLENTY).output;
            assert!(!blocks.contains(&255), "{record:?} {words:?}");
            dark += blocks.iter().filter(|block| **block == 254).count();
        }
    }
    assert!(dark > 10_000, "{dark}");
}

/// Block i of a recording stands clear at place j of a list: "Damage", word by word.
fn stands_clear(record: &Record, recording: &[u8], i: usize, list: &[u8], j: usize) -> bool {
    let (m, a) = (record.m, record.a);
    let late = || i >= m && j >= m && list[j - m..=j + a] == recording[i - m..=i + a];
    let early = || i < m && j == i && list[..=i + a] == recording[..=i + a];
    j + a < list.len() && (late() || early())
}

/// "Blocks beyond the reach of damage show neither mark": a block that stands clear is the datum written. Both marks
/// come beside them.
#[test]
fn blocks_that_stand_clear_show_neither_mark() {
    let mut random = Random::seeded(43);
    let (mut clear, mut moved, mut marks) = (0, 0, [0; 2]);
    for record in records(&mut random) {
        for _ in 0..20 {
            let blocks = random.bytes(30, 1 << record.p);
            let recording = recorded(&record, &blocks);
            let list = damage::words(&mut random, &recording, record.q);
            let read = decode_loaded(&record, &list, PLENTY).output;
            for (i, j) in (0..blocks.len()).flat_map(|i| (0..read.len()).map(move |j| (i, j))) {
                if stands_clear(&record, &recording, i, &list, j) {
                    assert_eq!(read[j], blocks[i], "block {i} at place {j}: {record:?} {list:?}");
                    clear += 1;
                    moved += usize::from(i != j);
                }
            }
            marks[0] += read.iter().filter(|block| **block == 254).count();
            marks[1] += read.iter().filter(|block| **block == 255).count();
        }
    }
    assert!(clear > 10_000 && moved > 10_000, "{clear} {moved}");
    assert!(marks.iter().all(|count| *count > 1000), "{marks:?}");
}

/// The decodings in the file of vectors show both marks, and data, everywhere, from words and from streams.
#[test]
fn the_file_shows_both_marks() {
    let bytes = generate(1);
    for kind in [DECODE, DECODE_STREAM] {
        let mut counts = Counts::default();
        for case in Walk(&bytes).filter(|case| case.kind == kind && case.answer.refusal == 0) {
            counts.add(&load(&case.first).unwrap(), &case.answer.output);
        }
        counts.assert_each(10);
    }
}
