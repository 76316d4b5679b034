//! Words verified: what holds of every record and every list. All words come back exactly if they are a recording; the
//! front that comes back ends at most a words before the first word that was changed; the words after say nothing.

use reference::accept::{accept, load};
use reference::calls::{decode_loaded, encode_loaded, verify_loaded, verify_stream_loaded};
use reference::published;
use reference::record::Record;
use reference::streams;
use reference::table::Table;
use reference::vectors::fixed::{mfm, E2};
use reference::vectors::marks::two_seven;
use reference::vectors::pool::{Good, Pool};
use reference::vectors::random::Random;
use reference::vectors::stream_borders::listed;
use reference::vectors::{damage, foreign, hex};
use std::collections::HashSet;

/// The number of words that come back; there are at least a, all of them below 2^q.
fn back(record: &Record, words: &[u8]) -> usize {
    let answer = verify_loaded(record, words);
    assert_eq!((answer.refusal, answer.output.len()), (0, 0));
    assert!(answer.value as usize <= words.len());
    answer.value as usize
}

/// The recording of data blocks, written a second time.
fn recording(record: &Record, data: &[u8]) -> Vec<u8> {
    let closed = [data, &vec![record.tail as u8; record.a]].concat();
    let mut state = 0;
    let mut step = |datum: &u8| {
        let entry = record.table.rows[state][usize::from(*datum)];
        state = entry.next;
        entry.word
    };
    closed.iter().map(&mut step).collect()
}

/// Every list of so many bytes below the bound.
fn every_list(count: usize, bound: usize) -> impl Iterator<Item = Vec<u8>> {
    let number = move |n: usize| (0..count).map(|place| (n / bound.pow(place as u32) % bound) as u8).collect();
    (0..bound.pow(count as u32)).map(number)
}

/// A small table that is accepted, its window the least or up to two wider each way, with any tail datum.
fn small(random: &mut Random) -> Record {
    loop {
        let mut record = foreign::any(random);
        record.m += random.below(3);
        record.a += random.below(3);
        record.tail = random.below(1 << record.p);
        if record.m + record.a <= 6 && accept(&record).is_ok() {
            return record;
        }
    }
}

/// The printed and the published records with any tail datum, and small foreign ones.
fn records(random: &mut Random, foreign: usize) -> Vec<Record> {
    let mut records: Vec<Record> = [hex(E2), mfm(), listed(), two_seven()].iter().map(|r| load(r).unwrap()).collect();
    records.extend(published::records().filter_map(|(_, record)| record));
    let closing = |record: &Record, tail| Record { tail, ..record.clone() };
    let others: Vec<Record> = records.iter().map(|record| closing(record, random.below(1 << record.p))).collect();
    records.extend(others);
    records.extend((0..foreign).map(|_| small(random)));
    records
}

/// A list of words comes back whole exactly if it is the recording of some data: all lists of up to some thousands
/// under each record.
#[test]
fn whole_exactly_if_a_recording() {
    let mut random = Random::seeded(71);
    let (mut whole, mut not) = (0, 0);
    for record in records(&mut random, 60) {
        let n = 1usize << record.q;
        for count in (record.a..).take_while(|count| n.pow(*count as u32) <= 5000) {
            let data = every_list(count - record.a, 1 << record.p);
            let recordings: HashSet<Vec<u8>> = data.map(|data| recording(&record, &data)).collect();
            for words in every_list(count, n) {
                let is_whole = back(&record, &words) == count;
                assert_eq!(is_whole, recordings.contains(&words), "{record:?} {words:?}");
                (whole, not) = (whole + usize::from(is_whole), not + usize::from(!is_whole));
            }
        }
    }
    assert!(whole > 5_000 && not > 50_000, "{whole} {not}");
}

/// The data of every path from a state that spells these words.
fn spelling(table: &Table, from: usize, words: &[u8]) -> Vec<Vec<u8>> {
    let Some((word, rest)) = words.split_first() else { return vec![vec![]] };
    let mut found = vec![];
    for (datum, entry) in table.rows[from].iter().enumerate().filter(|(_, entry)| entry.word == *word) {
        let further = spelling(table, entry.next, rest);
        found.extend(further.into_iter().map(|data| [vec![datum as u8], data].concat()));
    }
    found
}

/// Block i by whole paths, from any state over words i - m on, or from state 0 over words 0 on if i < m; none for a
/// mark.
fn block(record: &Record, words: &[u8], i: usize) -> Option<usize> {
    let (states, first) = if i < record.m { (1, 0) } else { (record.table.states(), i - record.m) };
    let paths = |s| spelling(&record.table, s, &words[first..=i + record.a]);
    (0..states).flat_map(paths).next().map(|data| usize::from(data[i - first]))
}

/// The call written a second time: one walk from state 0, word by word, that ends where the block is a mark or its word
/// is another than given; the last a blocks are the tail datum.
fn walked(record: &Record, words: &[u8]) -> usize {
    let mut state = 0;
    for (i, word) in words.iter().enumerate() {
        let datum = if i + record.a < words.len() { block(record, words, i) } else { Some(record.tail) };
        match datum.map(|datum| record.table.rows[state][datum]) {
            Some(entry) if entry.word == *word => state = entry.next,
            _ => return i,
        }
    }
    words.len()
}

/// One word changed, taken out or put in, words cut off or added, the recording of another tail datum or under another
/// record, and any words.
fn lists(random: &mut Random, record: &Record, other: &Record) -> Vec<Vec<u8>> {
    let count = random.below(12);
    let whole = recording(record, &random.bytes(count, 1 << record.p));
    let foreign: Vec<u8> = recording(other, &random.bytes(count, 1 << other.p));
    let tail = Record { tail: random.below(1 << record.p), ..record.clone() };
    let closed = recording(&tail, &random.bytes(count, 1 << record.p));
    let mut lists = vec![whole.clone(), random.bytes(whole.len(), 1 << record.q), closed];
    lists.push(foreign.iter().map(|word| word & (255 >> (8 - record.q))).collect());
    (0..6).for_each(|_| lists.push(damage::words(random, &whole, record.q)));
    if !whole.is_empty() {
        lists.push(damage::scratch(random, &whole, (0, 0), record.q));
        let place = random.below(whole.len());
        lists.push(damage::scratch(random, &whole, (place, place), record.q));
    }
    lists.retain(|words| words.len() >= record.a);
    lists
}

/// The call and the walk agree, from lists and from streams; whole, ended by a mark, by another word and by another
/// closing word.
#[test]
fn the_call_written_a_second_time() {
    let mut random = Random::seeded(72);
    let mut ends = [0; 4];
    let records = records(&mut random, 400);
    for record in &records {
        let other = random.pick(&records).clone();
        for words in lists(&mut random, record, &other) {
            let k = back(record, &words);
            assert_eq!(k, walked(record, &words), "{record:?} {words:?}");
            let stream = streams::pack(record.q, &words);
            assert_eq!(verify_stream_loaded(record, words.len() as u64, &stream), verify_loaded(record, &words));
            let blocks = decode_loaded(record, &words, words.len()).output;
            let end = match k {
                k if k == words.len() => 0,
                k if k >= blocks.len() => 3,
                k if blocks[k] >= 254 => 1,
                _ => 2,
            };
            ends[end] += 1;
        }
    }
    assert!(ends.iter().all(|count| *count > 200), "{ends:?}");
}

/// Good records of every kind and length, with any tail data.
fn pooled(random: &mut Random) -> Vec<Record> {
    let Pool { small, middle, large } = Pool::gather(random, 1);
    let goods = small.into_iter().chain(middle).chain(large.into_iter().take(4));
    let mut records: Vec<Record> = goods.map(|good: Good| good.record).collect();
    records.iter_mut().for_each(|record| record.tail = random.below(1 << record.p));
    records
}

/// The whole list comes back exactly if encoding the decoded blocks gives it; a recording always does.
#[test]
fn whole_exactly_if_it_is_encoded_again() {
    let mut random = Random::seeded(73);
    let (mut whole, mut not) = (0, 0);
    let records = pooled(&mut random);
    for record in &records {
        let data = random.bytes(20, 1 << record.p);
        assert_eq!(back(record, &encode_loaded(record, &data, 64).output), 20 + record.a);
        let other = random.pick(&records).clone();
        for words in lists(&mut random, record, &other) {
            let blocks = decode_loaded(record, &words, words.len()).output;
            let again = encode_loaded(record, &blocks, words.len());
            let same = again.refusal == 0 && again.output == words;
            assert_eq!(back(record, &words) == words.len(), same, "{record:?} {words:?}");
            (whole, not) = (whole + usize::from(same), not + usize::from(!same));
        }
    }
    assert!(whole > 400 && not > 1000, "{whole} {not}");
}

/// Where the first x words are those of a recording, at least x - a come back: the first word that was changed stands
/// at k + a or before. Sometimes it stands exactly there, and sometimes before k.
#[test]
fn the_first_changed_word_is_near() {
    let mut random = Random::seeded(74);
    let (mut farthest, mut before, mut after) = (0, 0, 0);
    let mut records = pooled(&mut random);
    records.extend(self::records(&mut random, 300));
    for record in &records {
        let count = random.within(1, 14);
        let whole = recording(record, &random.bytes(count, 1 << record.p));
        for _ in 0..20 {
            let words = damage::words(&mut random, &whole, record.q);
            if words.len() < record.a {
                continue;
            }
            let x = whole.iter().zip(&words).take_while(|(one, other)| one == other).count();
            let k = back(record, &words);
            assert!(k + record.a >= x, "{x} {k}: {record:?} {words:?}");
            farthest += usize::from(record.a > 0 && k + record.a == x);
            (before, after) = (before + usize::from(x < k), after + usize::from(x > k));
        }
    }
    assert!(farthest > 100 && before > 100 && after > 100, "{farthest} {before} {after}");
}

/// The front that comes back can be spelled from state 0; where it ends before the last a words, it depends on the
/// words up to k + a alone, however the list goes on.
#[test]
fn the_front_that_comes_back() {
    let mut random = Random::seeded(75);
    let mut tried = 0;
    let records = records(&mut random, 300);
    for record in &records {
        let other = random.pick(&records).clone();
        for words in lists(&mut random, record, &other) {
            let k = back(record, &words);
            assert!(!spelling(&record.table, 0, &words[..k]).is_empty(), "{record:?} {words:?}");
            if k + record.a < words.len() {
                let count = random.below(9);
                let on = [&words[..=k + record.a], &random.bytes(count, 1 << record.q)].concat();
                assert_eq!(back(record, &on), k, "{record:?} {words:?} {on:?}");
                tried += 1;
            }
        }
    }
    assert!(tried > 1000, "{tried}");
}
