//! Times of the proved library beside others: candidates interleaved in one run, 31 rounds, medians, outputs compared first.
use crate::chains::Chains;
use crate::compare::Numbers;
use crate::{hostile, library, plain};
use std::time::Instant;

const ROUNDS: usize = 31;

/// E2's record.
pub const E2: [u8; 12] = [0x24, 0x04, 0x40, 0x40, 0x23, 0x00, 0x41, 0x01, 0x01, 0x80, 0xe0, 0x00];

/// The record of the listed code as document 01 first printed it, m 1 and a 1, in today's layout: today's compiler
/// gives that job m 0.
pub const LISTED_FIRST: [u8; 22] = [
    0x46, 0x08, 0x44, 0x40, 0x23, 0x00, 0x41, 0x80, 0x60, 0xa8, 0x0a, 0x0a, 0x80, 0xa0, 0xb0, 0x1e, 0x01, 0x01, 0xc0,
    0x78, 0x0e, 0x08,
];

/// The record of a run-length job.
pub fn record(job: [u8; 5]) -> Vec<u8> {
    reference::calls::compile_run_length(&job, 65535).output
}

/// The bytes of a ready record.
pub fn ready(name: &str) -> Vec<u8> {
    std::fs::read(format!("records/{name}.sbc")).expect(name)
}

/// How long a call takes.
pub fn seconds(call: impl FnOnce()) -> f64 {
    let start = Instant::now();
    call();
    start.elapsed().as_secs_f64()
}

fn median(mut times: Vec<f64>) -> f64 {
    times.sort_by(f64::total_cmp);
    times[times.len() / 2]
}

/// The medians of the candidates' times, each round trying every candidate in turn.
pub fn medians(candidates: &mut [&mut dyn FnMut()]) -> Vec<f64> {
    let mut times = vec![Vec::new(); candidates.len()];
    for _ in 0..ROUNDS {
        for (candidate, times) in candidates.iter_mut().zip(&mut times) {
            times.push(seconds(candidate));
        }
    }
    times.into_iter().map(median).collect()
}

fn check() {
    println!("check, us a call");
    for (name, record, calls, answer) in [
        ("E2", E2.to_vec(), 1000, 0),
        ("2 7 4 8 16", record([2, 7, 4, 8, 16]), 20, 0),
        ("one word, refused", hostile::one_word().pack(), 5, 10),
        ("turned pairs, refused", hostile::turned_pairs().pack(), 5, 10),
        ("late words, accepted", hostile::late_words().pack(), 2, 0),
        ("long pairs, accepted", hostile::long_pairs().pack(), 5, 0),
    ] {
        assert_eq!(library::check(&record), (answer, 0), "{name}");
        let t = medians(&mut [
            &mut || (0..calls).for_each(|_| assert_eq!(library::check(&record).0, answer)),
            &mut || (0..calls).for_each(|_| assert_eq!(u64::from(reference::calls::check(&record).refusal), answer)),
        ]);
        let us = |t: f64| t * 1e6 / f64::from(calls);
        println!("  {name:21} proved {:9.2}   outside implementation {:9.2}", us(t[0]), us(t[1]));
    }
}

fn encode() {
    let record = record([0, 1, 2, 3, 2]);
    let table = Chains::of(&reference::accept::load(&record).expect("accepted"));
    let mut numbers = Numbers::new();
    let blocks: Vec<u8> = (0..1 << 20).map(|_| numbers.below(4) as u8).collect();
    let mut ours = vec![0; blocks.len() + table.lookahead];
    let mut theirs = ours.clone();
    assert_eq!(library::encode(&record, &blocks, &mut ours), (0, ours.len() as u64));
    assert_eq!(plain::encode(&table, &blocks, &mut theirs), theirs.len());
    assert_eq!(ours, theirs);
    let t = medians(&mut [
        &mut || assert_eq!(library::encode(&record, &blocks, &mut ours).0, 0),
        &mut || assert_eq!(plain::encode(&table, &blocks, &mut theirs), blocks.len() + table.lookahead),
        &mut || assert_eq!(library::check(&record).0, 0),
    ]);
    let loaded = t[0] - t[2];
    println!("encode, listed code, 1 MiB of blocks, ms");
    println!("  proved {:.3}, of which loading {:.3}; the same loop in C {:.3}", t[0] * 1e3, t[2] * 1e3, t[1] * 1e3);
    println!("  ratio with a loaded table {:.2}, with loading {:.2}", t[1] / loaded, t[1] / t[0]);
}

fn decode(name: &str, record: &[u8]) {
    let table = Chains::of(&reference::accept::load(record).expect("accepted"));
    let mut numbers = Numbers::new();
    let blocks: Vec<u8> = (0..1 << 20).map(|_| numbers.below(1 << table.p) as u8).collect();
    let words = reference::calls::encode(record, &blocks, 1 << 21).output;
    let few = &words[..(1 << 15) + table.lookahead];
    let mut ours = vec![0; words.len()];
    let mut theirs = ours.clone();
    let mut slow = ours.clone();
    assert_eq!(library::decode(record, &words, &mut ours), (0, blocks.len() as u64));
    assert_eq!(table.decode(&words, &mut theirs), blocks.len());
    assert_eq!(plain::decode(&table, few, &mut slow), 1 << 15);
    assert!(ours[..blocks.len()] == blocks && theirs[..blocks.len()] == blocks && slow[..1 << 15] == blocks[..1 << 15]);
    let spoiled: Vec<u8> = words.iter().map(|_| numbers.below(1 << table.q) as u8).collect();
    let marked = marks(record, &table, &spoiled);
    let mut dark = ours.clone();
    let t = medians(&mut [
        &mut || assert_eq!(library::decode(record, &words, &mut ours).0, 0),
        &mut || assert_eq!(table.decode(&words, &mut theirs), blocks.len()),
        &mut || assert_eq!(plain::decode(&table, few, &mut slow), 1 << 15),
        &mut || assert_eq!(library::check(record).0, 0),
        &mut || assert_eq!(library::decode(record, &spoiled, &mut dark).0, 0),
    ]);
    let ns = |t: f64, n: f64| t * 1e9 / n;
    let (ours, rust, c) = (ns(t[0] - t[3], 1048576.0), ns(t[1], 1048576.0), ns(t[2], 32768.0));
    println!("decode, {name}, ns a block with a loaded table (loading {:.3} ms)", t[3] * 1e3);
    println!("  proved {ours:.1}; chains in Rust {rust:.1}, ratio {:.2}; plain loops in C {c:.1}, ratio {:.2}", rust / ours, c / ours);
    println!("  random words: proved {:.1}; of 32,768 blocks {marked} are marked", ns(t[4] - t[3], 1048576.0));
}

/// All three decoders give the same blocks and marks for words that are no recording; how many are marked, by mark.
fn marks(record: &[u8], table: &Chains, words: &[u8]) -> String {
    let few = &words[..(1 << 15) + table.lookahead];
    let [mut ours, mut theirs, mut slow] = [(); 3].map(|_| vec![0; few.len()]);
    assert_eq!(library::decode(record, few, &mut ours), (0, 1 << 15));
    assert_eq!((table.decode(few, &mut theirs), plain::decode(table, few, &mut slow)), (1 << 15, 1 << 15));
    assert!(ours == theirs && ours == slow);
    let count = |mark| ours[..1 << 15].iter().filter(|&&block| block == mark).count();
    assert!(count(254) > 0 && (count(255) > 0) == (table.lookahead > 0));
    format!("{} (254) and {} (255)", count(254), count(255))
}

/// Short calls under a record that was accepted before, by the calls that check it again and by those that do not.
fn checked(name: &str, job: [u8; 5]) {
    let record = record(job);
    assert_eq!(library::check(&record), (0, 0), "the record of {name} is accepted");
    let mut numbers = Numbers::new();
    let blocks: Vec<u8> = (0..512).map(|_| numbers.below(1 << job[2]) as u8).collect();
    let mut words = vec![0; 512 + 15];
    let (done, written) = library::encode(&record, &blocks, &mut words);
    assert_eq!(done, 0);
    words.truncate(written as usize);
    let (mut again, mut back) = (vec![0; words.len()], vec![0; 512]);
    assert_eq!(library::encode_checked(&record, &blocks, &mut again), (0, written));
    assert_eq!(library::decode_checked(&record, &words, &mut back), (0, 512));
    assert!(again == words && back == blocks);
    let (mut first, mut data) = (again.clone(), back.clone());
    let calls = 20;
    let t = medians(&mut [
        &mut || (0..calls).for_each(|_| assert_eq!(library::encode(&record, &blocks, &mut first).0, 0)),
        &mut || (0..calls).for_each(|_| assert_eq!(library::encode_checked(&record, &blocks, &mut again).0, 0)),
        &mut || (0..calls).for_each(|_| assert_eq!(library::decode(&record, &words, &mut data).0, 0)),
        &mut || (0..calls).for_each(|_| assert_eq!(library::decode_checked(&record, &words, &mut back).0, 0)),
    ]);
    let us = |i: usize| t[i] * 1e6 / f64::from(calls);
    println!("512 blocks, {name}, us a call");
    println!("  encode {:.1}, encode_checked {:.1}; decode {:.1}, decode_checked {:.1}", us(0), us(1), us(2), us(3));
}

/// A run-length job that brings the weights which the compiler would find.
pub fn with_own_weights(job: [u8; 5]) -> Vec<u8> {
    let read = reference::job::Job::run_length(&job).expect("a job");
    let weights = reference::weights::greatest(&read);
    job.into_iter().chain(weights.into_iter().map(|w| w as u8)).collect()
}

fn compile() {
    println!("compile, ms a job");
    for job in [[2, 7, 4, 8, 16], [1, 13, 4, 6, 9], [2, 7, 1, 2, 4]] {
        let brought = with_own_weights(job);
        let expected = reference::calls::compile_run_length(&job, 65535);
        let mut out = vec![0; 4096];
        let answer = library::compile_run_length(&job, &mut out);
        assert_eq!(answer, (u64::from(expected.refusal), u64::from(expected.value)));
        assert_eq!(out[..expected.output.len()], expected.output);
        let mut again = vec![0; 4096];
        assert_eq!((library::compile_run_length(&brought, &mut again), &again), (answer, &out));
        let t = medians(&mut [
            &mut || assert_eq!(library::compile_run_length(&job, &mut out), answer),
            &mut || assert_eq!(library::compile_run_length(&brought, &mut again), answer),
            &mut || assert_eq!(reference::calls::compile_run_length(&job, 65535).refusal, expected.refusal),
        ]);
        let ms = t.iter().map(|t| t * 1e3).collect::<Vec<f64>>();
        println!("  {job:?} proved {:.3}, its weights brought {:.3}, sets as bits in Rust {:.3}", ms[0], ms[1], ms[2]);
        println!("    ratios to the first: {:.2}, {:.2}", ms[1] / ms[0], ms[2] / ms[0]);
    }
}

/// Prints every figure.
pub fn all() {
    check();
    compile();
    encode();
    decode("E2's record", &E2);
    decode("listed code", &record([0, 1, 2, 3, 2]));
    decode("listed code as first printed", &LISTED_FIRST);
    decode("MFM", &ready("mfm-1-3"));
    decode("ach-2-7", &ready("ach-2-7"));
    decode("2 7 4 8 16", &record([2, 7, 4, 8, 16]));
    crate::short::all();
    checked("listed code", [0, 1, 2, 3, 2]);
    checked("1 13 4 6 9", [1, 13, 4, 6, 9]);
    crate::streams::all();
    crate::weaving::all();
    crate::verify::all();
}
