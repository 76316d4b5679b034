//! Request (e): what holds of every record and every tail datum.

use reference::accept::load;
use reference::calls::{check, compile_job, compile_joined, compile_run_length, decode_loaded, encode_loaded, reach};
use reference::calls::{with_tail, with_tail_loaded};
use reference::encode::words;
use reference::record::Record;
use reference::vectors::damage::{self, field, fields, with_field, TAIL};
use reference::vectors::fixed::{EXTREME, TELLING};
use reference::vectors::jobs::{every_run_length, general};
use reference::vectors::pool::Pool;
use reference::vectors::random::Random;
use reference::vectors::tails::{old_shape, with_value};
use reference::vectors::{foreign, hex};

/// Room enough for every result here.
const PLENTY: usize = 4096;

/// Good records of every kind and length.
fn records(random: &mut Random) -> Vec<Record> {
    let Pool { small, middle, large } = Pool::gather(random, 1);
    small.into_iter().chain(middle).chain(large).map(|good| good.record).collect()
}

/// Good records that have closing blocks: those of the pool, and foreign ones with a wider window.
fn with_closing(random: &mut Random) -> Vec<Record> {
    let mut records = records(random);
    for _ in 0..200 {
        let wider = foreign::any(random);
        records.push(Record { a: random.within(wider.a, 15), ..wider });
    }
    records.into_iter().filter(|record| record.a > 0 && check(&record.pack()).refusal == 0).collect()
}

/// The checks before 9 written a second time, each field at its own bit.
fn first_checks(bytes: &[u8]) -> u8 {
    if bytes.len() < 5 {
        return 8;
    }
    let at = |first: usize, width: usize| field(bytes, (first, width));
    let [p, q, states, k] = [at(0, 3), at(3, 4), at(7, 7) + 1, at(22, 4) + 1];
    if p == 0 || p > 4 || q == 0 || q > 8 || at(26, 4) >= k || at(30, 4) >= 1 << p {
        return 7;
    }
    let (entries, bits) = (34 + 10 * k, 34 + 10 * k + (states << p) * (q + 7));
    if bytes.len() != bits.div_ceil(8) {
        return 8;
    }
    let next = |i: usize| if at(34 + 5 * i, 1) == 1 { at(35 + 5 * i, 4) < k } else { at(35 + 5 * i, 4) == 0 };
    let entry = |i: usize| at(entries + i * (q + 7) + q, 7) < states;
    let filled = (bits..bytes.len() * 8).all(|place| at(place, 1) == 0);
    let good = (0..2 * k).all(next) && (0..states << p).all(entry) && filled;
    if good {
        0
    } else {
        7
    }
}

/// Bytes are read by the new fields alone, records in the old shape too: whole, cut and lengthened by a byte, and with
/// a bit turned over.
#[test]
fn records_are_read_by_their_fields() {
    let mut random = Random::seeded(51);
    let mut answers = [0; 11];
    for record in records(&mut random) {
        for bytes in [record.pack(), old_shape(&record), with_value(&record, random.below(16))] {
            let mut turned = bytes.clone();
            turned[random.below(bytes.len().min(20))] ^= 1 << random.below(8);
            for bytes in [&bytes[..], &bytes[..bytes.len() - 1], &[&bytes[..], &[0]].concat(), &turned] {
                let told = Record::parse(bytes).err().unwrap_or(0);
                assert_eq!(told, first_checks(bytes), "{bytes:02x?}");
                answers[usize::from(told)] += 1;
            }
        }
    }
    assert!([0, 7, 8].iter().all(|refusal| answers[*refusal] > 200), "{answers:?}");
}

/// Refusals 9 and 10 do not depend on the tail datum, nor does acceptance; 7 comes for one of 2^p or more.
#[test]
fn refusals_9_and_10_do_not_depend_on_the_tail_datum() {
    let mut random = Random::seeded(52);
    let mut answers = [0; 11];
    for record in records(&mut random).into_iter().filter(|record| record.table.states() < 40) {
        for round in 0..12 {
            let front = round % 2 == 0;
            let fields = fields(&record);
            let place = *random.pick(if front { &fields[3..6] } else { &fields[TAIL + 1..] });
            let Ok(changed) = Record::parse(&with_field(&record.pack(), place, random.below(1 << place.1))) else {
                continue;
            };
            let expected = check(&changed.pack()).refusal;
            answers[usize::from(expected)] += 1;
            for value in 0..16 {
                let told = check(&with_value(&changed, value)).refusal;
                assert_eq!(told, if value < 1 << record.p { expected } else { 7 }, "{changed:?}");
            }
        }
    }
    assert!([0, 9, 10].iter().all(|refusal| answers[*refusal] > 100), "{answers:?}");
}

/// "The compiler writes 0", whatever the job.
#[test]
fn compiled_records_have_tail_datum_0() {
    let mut random = Random::seeded(53);
    let mut outputs: Vec<Vec<u8>> = (0..300).map(|_| compile_job(&general(&mut random), PLENTY).output).collect();
    outputs.extend(every_run_length().step_by(97).map(|job| compile_run_length(&job, PLENTY).output));
    outputs.extend(EXTREME.map(|job| compile_run_length(&job, PLENTY).output));
    outputs.extend(TELLING.map(|job| compile_joined(&hex(job), PLENTY).output));
    let tails: Vec<usize> = outputs.iter().filter_map(|bytes| load(bytes).ok()).map(|record| record.tail).collect();
    assert!(tails.len() > 200 && tails.iter().all(|tail| *tail == 0), "{}", tails.len());
}

/// A recording is the words of the blocks and then those of a blocks of the tail datum: as many words as before, of
/// which only the last a can differ, and the recording of those blocks by a record without lookahead.
#[test]
fn a_recording_closes_with_the_stated_datum() {
    let mut random = Random::seeded(54);
    let mut differ = 0;
    for record in with_closing(&mut random) {
        for tail in (0..1 << record.p).cycle().take(4 << record.p) {
            let count = random.below(20);
            let blocks = random.bytes(count, 1 << record.p);
            let told = encode_loaded(&Record { tail, ..record.clone() }, &blocks, PLENTY).output;
            let data = [&blocks[..], &vec![tail as u8; record.a]].concat();
            assert_eq!(told, words(&Record { a: 0, ..record.clone() }, &data));
            let before = words(&record, &blocks);
            assert_eq!((told.len(), &told[..count]), (count + record.a, &before[..count]));
            differ += usize::from(told != before);
        }
    }
    assert!(differ > 1000, "{differ}");
}

/// Every recording, under every tail datum, obeys the constraint bit by bit and decodes to its blocks.
#[test]
fn recordings_obey_and_decode_under_every_tail_datum() {
    let mut random = Random::seeded(55);
    for record in with_closing(&mut random) {
        let blocks = random.bytes(25, 1 << record.p);
        for tail in 0..1 << record.p {
            let record = Record { tail, ..record.clone() };
            let recording = words(&record, &blocks);
            let step = |state: usize, word: &u8| record.constraint.follow(state, *word, record.q);
            assert!(recording.iter().try_fold(record.start, step).is_some(), "{record:?}");
            assert_eq!(decode_loaded(&record, &recording, 25).output, blocks, "{record:?}");
        }
    }
}

/// Decoding asks no tail datum: any words are read alike, and the reach of overwritten bits is the same.
#[test]
fn decoding_and_the_reach_do_not_depend_on_the_tail_datum() {
    let mut random = Random::seeded(56);
    for record in with_closing(&mut random) {
        let recording = words(&record, &random.bytes(12, 1 << record.p));
        let list = damage::words(&mut random, &recording, record.q);
        let other = Record { tail: random.within(1, (1 << record.p) - 1), ..record.clone() };
        assert_eq!(decode_loaded(&other, &list, PLENTY), decode_loaded(&record, &list, PLENTY));
        assert_eq!(reach(&other.pack(), 9, 30), reach(&record.pack(), 9, 30));
    }
}

/// The claim about damage, where the window of a block reaches into closing words of any tail datum: block i of the
/// recording is read at place j of a list wherever "Damage" says that it stands clear.
#[test]
fn blocks_stand_clear_beside_closing_words() {
    let mut random = Random::seeded(57);
    let (mut clear, mut closing) = (0, 0);
    for record in with_closing(&mut random) {
        let record = Record { tail: random.below(1 << record.p), ..record };
        let (m, a) = (record.m, record.a);
        for _ in 0..10 {
            let blocks = random.bytes(16, 1 << record.p);
            let recording = words(&record, &blocks);
            let list = damage::words(&mut random, &recording, record.q);
            let read = decode_loaded(&record, &list, PLENTY).output;
            for (i, j) in (0..16).flat_map(|i| (0..read.len()).map(move |j| (i, j))) {
                let late = || i >= m && j >= m && list[j - m..=j + a] == recording[i - m..=i + a];
                if late() || (i < m && j == i && list[..=i + a] == recording[..=i + a]) {
                    assert_eq!(read[j], blocks[i], "block {i} at place {j}: {record:?} {list:?}");
                    clear += 1;
                    closing += usize::from(i + a >= 16);
                }
            }
        }
    }
    assert!(clear > 10_000 && closing > 3_000, "{clear} {closing}");
}

/// Another tail datum changes the four bits and nothing else, makes as many bytes, and is the record of that datum.
/// Two changes are the last one, and the old datum gives the old bytes.
#[test]
fn another_tail_datum_changes_only_its_bits() {
    let mut random = Random::seeded(58);
    for record in records(&mut random) {
        let (bytes, n) = (record.pack(), 1 << record.p);
        let mut last = bytes.clone();
        for datum in (0..n).chain([random.below(n), 0]) {
            let told = with_tail_loaded(record.clone(), datum as u64, bytes.len());
            assert_eq!((told.refusal, told.value as usize), (0, bytes.len()));
            assert_eq!(told.output, with_field(&bytes, fields(&record)[TAIL], datum));
            let same = |place: usize| field(&told.output, (place, 1)) == field(&bytes, (place, 1));
            assert!((0..bytes.len() * 8).all(|place| same(place) || (30..34).contains(&place)));
            assert_eq!(Record::parse(&told.output), Ok(Record { tail: datum, ..record.clone() }));
            last = with_tail_loaded(Record::parse(&last).unwrap(), datum as u64, PLENTY).output;
            assert_eq!(last, told.output, "two changes are the last one");
        }
        assert_eq!(last, bytes, "the old datum gives the old bytes");
        assert_eq!(with_tail(&bytes, n as u64, 0).refusal, 7);
        assert_eq!(with_tail(&bytes, n as u64 - 1, bytes.len() - 1).refusal, 13);
    }
}
