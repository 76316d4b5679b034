//! Verifying words: random calls beside the outside implementation, and times beside decoding.
use crate::compare::{agree, damaged, Numbers};
use crate::library;
use crate::speed::{medians, ready, record};
use crate::streams::near;

/// Records with their p and q.
type Records = [(Vec<u8>, usize, usize)];

fn random(numbers: &mut Numbers, count: usize, bound: usize) -> Vec<u8> {
    (0..count).map(|_| numbers.below(bound) as u8).collect()
}

/// A recording of random blocks under a record; none if it is refused.
fn recording(numbers: &mut Numbers, record: &[u8], p: usize) -> Vec<u8> {
    let count = numbers.below(40);
    reference::calls::encode(record, &random(numbers, count, 1 << p), 100).output
}

/// A recording whole, with a word changed, lost or added, with bits turned, cut, lengthened, or under another record;
/// or any words.
fn list(numbers: &mut Numbers, record: &[u8], (p, q): (usize, usize), records: &Records) -> Vec<u8> {
    let mut words = recording(numbers, record, p);
    let (length, place, word) = (words.len(), numbers.below(words.len() + 1), numbers.below(1 << q) as u8);
    match numbers.below(12) {
        0..=2 if place < length => words[place] = word,
        3 if place < length => drop(words.remove(place)),
        4 => words.insert(place, word),
        5 => words = damaged(numbers, &words),
        6 => words.truncate(place),
        7 => (0..=numbers.below(4)).for_each(|_| words.push(numbers.below(1 << q) as u8)),
        8 => words = random(numbers, length, 1 << q),
        9 => {
            let (other, p, _) = &records[numbers.below(records.len())];
            words = recording(numbers, other, *p);
        }
        _ => {}
    }
    words
}

/// What verified lists came to.
#[derive(Default)]
pub struct Verified {
    whole: u64,
    marked: u64,
    other: u64,
    closing: u64,
}

impl Verified {
    /// Counts a list of which so many words came back: all; up to a mark, another word, or another closing word.
    fn count(&mut self, record: &[u8], words: &[u8], back: u64) {
        let blocks = reference::calls::decode(record, words, words.len()).output;
        match blocks.get(back as usize) {
            _ if back == words.len() as u64 => self.whole += 1,
            None => self.closing += 1,
            Some(254..) => self.marked += 1,
            Some(_) => self.other += 1,
        }
    }

    /// A list verified under a record that may be damaged; and its words as a stream, with a count that may be wrong and
    /// bits that may be turned.
    pub fn one(&mut self, numbers: &mut Numbers, record: &[u8], (p, q): (usize, usize), records: &Records) -> u64 {
        let mut words = list(numbers, record, (p, q), records);
        let ours = library::verify(record, &words);
        agree("verify", &words, ours, &[], &reference::calls::verify(record, &words));
        if ours.0 == 0 {
            self.count(record, &words, ours.1);
        }
        words.iter_mut().for_each(|word| *word &= ((1u16 << q) - 1) as u8);
        let mut stream = reference::calls::pack(q as u64, &words, 100).output;
        if numbers.below(3) == 0 {
            stream = damaged(numbers, &stream);
        }
        let count = near(numbers, words.len());
        let back = library::verify_stream(record, count, &stream);
        agree("verify_stream", &stream, back, &[], &reference::calls::verify_stream(record, count, &stream));
        back.0.max(ours.0)
    }

    /// Prints what they came to.
    pub fn print(&self) {
        let Verified { whole, marked, other, closing } = self;
        print!("{} lists verified, {whole} recordings, ", whole + marked + other + closing);
        println!("{marked} up to a mark, {other} up to another word, {closing} up to another closing word");
    }
}

/// A recording and its stream at the limit of 1,000,000 words and one past it, whole and with the last word changed: a
/// list has no limit.
pub fn limits(record: &[u8]) {
    let loaded = reference::accept::load(record).expect("accepted");
    for count in [1_000_000, 1_000_001] {
        let mut words = reference::encode::words(&loaded, &vec![1; count - loaded.a]);
        for last in [0, 1] {
            words[count - 1] ^= last;
            let stream = reference::streams::pack(loaded.q, &words);
            let ours = library::verify(record, &words);
            agree("verify", &[], ours, &[], &reference::calls::verify(record, &words));
            let ours = library::verify_stream(record, count as u64, &stream);
            let theirs = reference::calls::verify_stream(record, count as u64, &stream);
            agree("verify_stream", &[], ours, &[], &theirs);
        }
    }
}

/// A recording of 1,000,000 words verified and decoded, from words and from a stream.
fn beside_decoding(name: &str, record: &[u8]) {
    let loaded = reference::accept::load(record).expect("accepted");
    let blocks = random(&mut Numbers::new(), 1_000_000 - loaded.a, 1 << loaded.p);
    let words = reference::calls::encode(record, &blocks, 1_000_000).output;
    let stream = reference::calls::pack(loaded.q as u64, &words, 1_000_000).output;
    let [mut out, mut again] = [(); 2].map(|_| vec![0; blocks.len()]);
    let (all, done) = ((0, 1_000_000), (0, blocks.len() as u64));
    let t = medians(&mut [
        &mut || assert_eq!(library::verify(record, &words), all),
        &mut || assert_eq!(library::decode(record, &words, &mut out), done),
        &mut || assert_eq!(library::verify_stream(record, 1_000_000, &stream), all),
        &mut || assert_eq!(library::decode_stream(record, 1_000_000, &stream, &mut again), done),
    ]);
    assert!(out == blocks && again == blocks);
    let ns = |i: usize| t[i] * 1e3;
    println!("{name}, 1,000,000 words, ns a word with loading");
    println!("  verify {:.2}, decode {:.2}, ratio {:.2}", ns(0), ns(1), t[1] / t[0]);
    println!("  verify a stream {:.2}, decode it {:.2}, ratio {:.2}", ns(2), ns(3), t[3] / t[2]);
}

/// Prints every figure.
pub fn all() {
    beside_decoding("listed code", &record([0, 1, 2, 3, 2]));
    beside_decoding("MFM", &ready("mfm-1-3"));
    beside_decoding("ach-2-7", &ready("ach-2-7"));
}
