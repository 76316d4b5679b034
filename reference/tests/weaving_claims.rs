//! Request (f): the claim about scratches, "overwriting at most D neighbouring places with words below 2^q touches at
//! most one word of each recording, so in each at most m + a + 1 blocks can come out otherwise than written".

use reference::accept::load;
use reference::calls::{compile_job, compile_joined, compile_run_length, decode_loaded, encode_loaded};
use reference::calls::{unweave, weave};
use reference::published;
use reference::record::Record;
use reference::vectors::fixed::{mfm, E2, EXTREME, TELLING};
use reference::vectors::jobs::{compiling_run_length, general};
use reference::vectors::random::Random;
use reference::vectors::stream_borders::listed;
use reference::vectors::{damage, foreign, hex};

/// Room enough for every result here.
const PLENTY: usize = 4096;

/// Records of every kind: printed, published, compiled from all three kinds of job, and foreign, some with a wider
/// window; with any tail data.
fn records(random: &mut Random) -> Vec<Record> {
    let mut records: Vec<Record> = published::records().filter_map(|(_, record)| record).collect();
    let mut packed = vec![hex(E2), listed(), compile_run_length(&[0, 1, 1, 2, 1], PLENTY).output];
    packed.extend(EXTREME.map(|job| compile_run_length(&job, PLENTY).output));
    packed.extend(TELLING.map(|job| compile_joined(&hex(job), PLENTY).output));
    packed.extend([3, 8, 17, 31, 32].map(|length| foreign::ring(length).pack()));
    for _ in 0..60 {
        packed.push(compiling_run_length(random).1);
        packed.push(compile_job(&general(random), PLENTY).output);
        packed.push(foreign::any(random).pack());
        let wider = foreign::any(random);
        let (m, a) = (random.within(wider.m, 15), random.within(wider.a, 15));
        packed.push(Record { m, a, ..wider }.pack());
    }
    records.extend(packed.iter().filter_map(|bytes| load(bytes).ok()));
    records.into_iter().map(|record| Record { tail: random.below(1 << record.p), ..record }).collect()
}

/// D recordings under one record: the blocks of each, and the words one recording after the other.
fn recorded(random: &mut Random, record: &Record, d: usize, count: usize) -> (Vec<Vec<u8>>, Vec<u8>) {
    let data: Vec<Vec<u8>> = (0..d).map(|_| random.bytes(count, 1 << record.p)).collect();
    let words = data.iter().flat_map(|blocks| encode_loaded(record, blocks, PLENTY).output).collect();
    (data, words)
}

/// The numbers at which two lists of one length differ.
fn differing(one: &[u8], other: &[u8]) -> Vec<usize> {
    assert_eq!(one.len(), other.len());
    (0..one.len()).filter(|i| one[*i] != other[*i]).collect()
}

/// The words and the blocks of each recording that come out otherwise than written from these places.
fn outcome(record: &Record, data: &[Vec<u8>], words: &[u8], places: &[u8]) -> Vec<[Vec<usize>; 2]> {
    let d = data.len();
    let unwoven = unweave(d as u64, places, places.len()).output;
    let each = words.len() / d;
    let mut outcome = Vec::new();
    for (r, blocks) in data.iter().enumerate() {
        let (written, read) = (&words[r * each..][..each], &unwoven[r * each..][..each]);
        let decoded = decode_loaded(record, read, blocks.len());
        assert_eq!((decoded.refusal, decoded.value as usize), (0, blocks.len()), "11 cannot come");
        outcome.push([differing(written, read), differing(blocks, &decoded.output)]);
    }
    outcome
}

/// One word of a recording at most, and at most m + a + 1 blocks: those that have the word in their window.
fn within_the_claim(record: &Record, [words, blocks]: &[Vec<usize>; 2]) -> bool {
    let near = |i: &usize| words.iter().any(|j| (*j <= i + record.a) && (*i <= j + record.m));
    words.len() <= 1 && blocks.len() <= record.m + record.a + 1 && blocks.iter().all(near)
}

/// The first and the last of up to D neighbouring places, and of exactly D: anywhere, and at either border.
fn scratches(random: &mut Random, d: usize, places: usize) -> [(usize, usize); 6] {
    let short = random.within(1, d);
    let mut anywhere = |count: usize| {
        let f = random.below(places - count + 1);
        (f, f + count - 1)
    };
    let (one, other) = (anywhere(short), anywhere(d));
    [one, other, (0, short - 1), (0, d - 1), (places - short, places - 1), (places - d, places - 1)]
}

/// Every record with every D, six scratches each: the claim holds, some scratches touch a word of every recording, and
/// m + a + 1 blocks do come out otherwise, where that is one block and where it is more.
#[test]
fn a_scratch_stays_within_the_claim() {
    let mut random = Random::seeded(63);
    let (mut tried, mut every_one, mut most) = (0, 0, [0; 2]);
    let records = records(&mut random);
    for (record, d) in records.iter().flat_map(|record| (2..=16).map(move |d| (record, d))) {
        let count = random.within(1, 30);
        let (data, words) = recorded(&mut random, record, d, count);
        let places = weave(d as u64, &words, words.len()).output;
        assert!(outcome(record, &data, &words, &places).iter().all(|lists| lists.iter().all(Vec::is_empty)));
        let reach = record.m + record.a + 1;
        for range in scratches(&mut random, d, places.len()) {
            let scratched = damage::scratch(&mut random, &places, range, record.q);
            let outcome = outcome(record, &data, &words, &scratched);
            for lists in &outcome {
                assert!(within_the_claim(record, lists), "D {d}, places {range:?}: {lists:?} {record:?}");
                most[usize::from(reach > 1)] += usize::from(lists[1].len() == reach);
            }
            every_one += usize::from(outcome.iter().all(|lists| lists[0].len() == 1));
            tried += 1;
        }
    }
    assert!(tried > 15_000 && every_one > 1_000, "{tried} {every_one}");
    assert!(most.iter().all(|most| *most > 1_000), "{most:?}");
}

/// All words below 4 in so many places.
fn all_words(count: usize) -> impl Iterator<Item = Vec<u8>> {
    (0..1 << (2 * count)).map(move |number: usize| (0..count).map(|place| (number >> (2 * place) & 3) as u8).collect())
}

/// Every scratch on all pairs of recordings of three blocks, and on all triples of two blocks, under E2.
#[test]
fn every_scratch_on_short_recordings() {
    let record = load(&hex(E2)).unwrap();
    for (d, count) in [(2, 3), (3, 2)] {
        for number in 0..1 << 6 {
            let bits: Vec<u8> = (0..6).map(|place| number >> place & 1).collect();
            let data: Vec<Vec<u8>> = bits.chunks(count).map(<[u8]>::to_vec).collect();
            let words: Vec<u8> = data.iter().flat_map(|blocks| encode_loaded(&record, blocks, PLENTY).output).collect();
            let places = weave(d, &words, 6).output;
            for (f, length) in (0..6).flat_map(|f| (1..=d as usize).map(move |length| (f, length))) {
                for over in all_words(length).filter(|_| f + length <= 6) {
                    let scratched = [&places[..f], &over, &places[f + length..]].concat();
                    let outcome = outcome(&record, &data, &words, &scratched);
                    assert!(outcome.iter().all(|lists| within_the_claim(&record, lists)));
                }
            }
        }
    }
}

/// How many of places f to f + count - 1 belong to each of D recordings of so many words.
fn touched(d: usize, each: usize, f: usize, count: usize) -> Vec<usize> {
    let places: Vec<u8> = (0..d * each).map(|place| u8::from((f..f + count).contains(&place))).collect();
    let words = unweave(d as u64, &places, places.len()).output;
    words.chunks(each).map(|recording| recording.iter().filter(|word| **word == 1).count()).collect()
}

/// Up to D neighbouring places, wherever they stand, hold at most one word of each recording, and exactly D hold one of
/// each; D + 1 hold two words of one recording, so that the claim holds of no more than D.
#[test]
fn neighbouring_places_of_every_depth() {
    for (d, each) in (2..=16).flat_map(|d| (1..=5).map(move |each| (d, each))) {
        for (f, count) in (0..d * each).flat_map(|f| (1..=d).map(move |count| (f, count))) {
            let touched = touched(d, each, f, count);
            assert!(touched.iter().all(|words| *words <= 1));
            assert!(f + count > d * each || touched.iter().sum::<usize>() == count);
        }
        for f in 0..d * (each - 1) {
            let touched = touched(d, each, f, d + 1);
            assert!((0..d).all(|r| touched[r] == if r == f % d { 2 } else { 1 }));
        }
    }
}

/// With D + 1 places more than m + a + 1 blocks of a recording can come out otherwise, whatever D is.
#[test]
fn one_place_more_goes_beyond_the_claim() {
    let mut random = Random::seeded(64);
    for (record, d) in [mfm(), hex(E2), listed()].iter().flat_map(|record| (2..=16).map(move |d| (record, d))) {
        let record = load(record).unwrap();
        let mut beyond = || {
            let (data, words) = recorded(&mut random, &record, d, 8);
            let places = weave(d as u64, &words, words.len()).output;
            let f = random.below(places.len() - d);
            let scratched = damage::scratch(&mut random, &places, (f, f + d), record.q);
            let outcome = outcome(&record, &data, &words, &scratched);
            outcome.iter().any(|lists| lists[0].len() == 2 && lists[1].len() > record.m + record.a + 1)
        };
        assert!((0..1000).any(|_| beyond()), "D {d}: {record:?}");
    }
}

/// "Lost or added words are outside this, since they shift every recording": one place lost near the front, and a word
/// added at the end so that D divides the length.
#[test]
fn a_lost_word_shifts_every_recording() {
    let mut random = Random::seeded(65);
    let record = load(&mfm()).unwrap();
    for d in 2..=16 {
        let (data, words) = recorded(&mut random, &record, d, 60);
        let mut places = weave(d as u64, &words, words.len()).output;
        places.remove(random.below(d));
        assert_eq!(unweave(d as u64, &places, words.len()).refusal, 16);
        places.push(1);
        let outcome = outcome(&record, &data, &words, &places);
        assert!(outcome.iter().all(|lists| lists[1].len() > 10), "D {d}");
    }
}
