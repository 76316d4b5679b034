//! Weaving: random calls beside the outside implementation, scratches across woven recordings, and times beside two
//! loops in C.
use crate::compare::{agree, Numbers};
use crate::library;
use crate::speed::medians;

extern "C" {
    fn loop_places(a: usize, b: usize, words: *const u8, out: *mut u8);
    fn loop_lists(a: usize, b: usize, words: *const u8, out: *mut u8);
}

fn random(numbers: &mut Numbers, count: usize, bound: usize) -> Vec<u8> {
    (0..count).map(|_| numbers.below(bound) as u8).collect()
}

/// A depth that is good, or nearly, or far too large.
fn near(numbers: &mut Numbers) -> u64 {
    match numbers.below(8) {
        0 => [0, 1, 17, u64::MAX][numbers.below(4)],
        1 => (1 << [8, 16, 32, 63][numbers.below(4)]) + numbers.below(17) as u64,
        _ => 2 + numbers.below(15) as u64,
    }
}

/// Both calls on the same words; they decline the same.
fn both(depth: u64, words: &[u8], room: usize) -> u64 {
    let (start, said) = (&words[..words.len().min(80)], format!("{depth} of {} words", words.len()));
    let mut out = vec![0xa5; room];
    let ours = library::weave(depth, words, &mut out);
    agree(&format!("weave {said}"), start, ours, &out, &reference::calls::weave(depth, words, room));
    let mut out = vec![0xa5; room];
    let back = library::unweave(depth, words, &mut out);
    agree(&format!("unweave {said}"), start, back, &out, &reference::calls::unweave(depth, words, room));
    assert_eq!(ours, back, "weave and unweave {said}");
    ours.0
}

/// Words woven and unwoven; the depth is sometimes bad, or the length, or the room.
pub fn calls(numbers: &mut Numbers) -> u64 {
    let depth = near(numbers);
    let length = match numbers.below(4) {
        0 => numbers.below(80),
        _ => numbers.below(6) * depth.min(16) as usize,
    };
    let words = random(numbers, length, 256);
    let room = match numbers.below(8) {
        0 => numbers.below(length + 1),
        _ => (length + 4).saturating_sub(numbers.below(6)),
    };
    both(depth, &words, room)
}

/// Long lists of words: neither call has a limit.
pub fn limits() {
    let words = random(&mut Numbers::new(), 1_400_000, 256);
    for (depth, length) in [(16, 1_000_000), (5, 1_000_015), (2, 1_000_016), (7, 1_400_000)] {
        assert_eq!(both(depth, &words[..length], length + 1), 0);
        assert_eq!(both(depth, &words[..length], length), 0);
        assert_eq!(both(depth, &words[..length], length - 1), 13);
        assert_eq!(both(depth, &words[..length - 1], length), 16);
    }
}

/// Recordings under records with one and the same m + a + 1.
#[derive(Clone, Copy, Default)]
struct Tally {
    recordings: u64,
    most: usize,
    reached: u64,
}

/// What scratches across woven recordings came to; the tallies are by m + a + 1.
#[derive(Default)]
pub struct Scratches {
    tried: u64,
    whole: u64,
    first: u64,
    last: u64,
    tallies: [Tally; 32],
}

impl Scratches {
    /// Where a scratch starts and how many places it has: as many as there are recordings, or fewer, at the first place
    /// of all, at the last, or anywhere.
    fn place(&mut self, numbers: &mut Numbers, depth: usize, length: usize) -> (usize, usize) {
        let size = if numbers.below(2) == 0 { depth } else { 1 + numbers.below(depth) };
        let first = match numbers.below(4) {
            0 => 0,
            1 => length - size,
            _ => numbers.below(length - size + 1),
        };
        self.tried += 1;
        self.whole += u64::from(size == depth);
        self.first += u64::from(first == 0);
        self.last += u64::from(first + size == length);
        (first, size)
    }

    /// Recordings woven, scratched and unwoven.
    fn scratched(&mut self, numbers: &mut Numbers, depth: usize, q: usize, words: &[u8]) -> Vec<u8> {
        let done = (0, words.len() as u64);
        let [mut woven, mut back] = [(); 2].map(|_| vec![0; words.len()]);
        assert_eq!(library::weave(depth as u64, words, &mut woven), done);
        assert_eq!(library::unweave(depth as u64, &woven, &mut back), done);
        assert_eq!(back, words, "woven and unwoven");
        let (first, size) = self.place(numbers, depth, words.len());
        woven[first..first + size].iter_mut().for_each(|word| *word = numbers.below(1 << q) as u8);
        assert_eq!(library::unweave(depth as u64, &woven, &mut back), done);
        back
    }

    /// One recording: as it was written, the words read after the scratch, and the data.
    fn count(&mut self, record: &[u8], bound: usize, written: &[u8], read: &[u8], data: &[u8]) {
        let mut blocks = vec![0; data.len()];
        assert_eq!(library::decode(record, read, &mut blocks), (0, data.len() as u64));
        let touched = differences(read, written);
        let spoiled = differences(&blocks, data);
        assert!(touched <= 1 && spoiled <= bound, "{touched} words of {written:02x?}, {spoiled} blocks of {data:02x?}");
        let tally = &mut self.tallies[bound];
        tally.recordings += 1;
        tally.most = tally.most.max(spoiled);
        tally.reached += u64::from(spoiled == bound);
    }

    /// Some recordings of random blocks under an accepted record, woven, and at most as many neighbouring places as
    /// there are recordings overwritten with words below 2^q: in each at most one word, and at most m + a + 1 blocks,
    /// differ from what was written.
    pub fn one(&mut self, numbers: &mut Numbers, record: &[u8]) -> u64 {
        let mut info = [0; 8];
        assert_eq!(library::info(record, &mut info), (0, 8));
        let [p, q, _, m, a, ..] = info.map(usize::from);
        let (depth, blocks) = (2 + numbers.below(15), 1 + numbers.below(40));
        let data = random(numbers, depth * blocks, 1 << p);
        let size = blocks + a;
        let mut words = vec![0; depth * size];
        for (data, words) in data.chunks(blocks).zip(words.chunks_mut(size)) {
            assert_eq!(library::encode(record, data, words), (0, size as u64));
        }
        let read = self.scratched(numbers, depth, q, &words);
        for ((written, read), data) in words.chunks(size).zip(read.chunks(size)).zip(data.chunks(blocks)) {
            self.count(record, m + a + 1, written, read, data);
        }
        0
    }

    /// Prints what they came to.
    pub fn print(&self) {
        let recordings: u64 = self.tallies.iter().map(|tally| tally.recordings).sum();
        print!("{} scratches of up to D words across D woven recordings, {} of exactly D, ", self.tried, self.whole);
        println!("{} from the first place, {} to the last", self.first, self.last);
        println!("{recordings} recordings decoded, at most m + a + 1 blocks of each not as written:");
        for (bound, tally) in self.tallies.iter().enumerate().filter(|(_, tally)| tally.recordings > 0) {
            let Tally { recordings, most, reached } = tally;
            println!("  m + a + 1 = {bound}: {recordings} recordings, most {most}, as many as the bound in {reached}");
        }
    }
}

fn differences(left: &[u8], right: &[u8]) -> usize {
    left.iter().zip(right).filter(|(l, r)| l != r).count()
}

/// A call at depth 16 on 1,000,000 words beside two loops in C, a lists of b words, and beside copying them.
fn row(name: &str, call: fn(u64, &[u8], &mut [u8]) -> (u64, u64), (a, b): (usize, usize)) {
    let words = random(&mut Numbers::new(), 1_000_000, 256);
    let [mut ours, mut places, mut lists, mut copy] = [(); 4].map(|_| vec![0; words.len()]);
    assert_eq!(a * b, words.len());
    // The loops read and write a * b bytes.
    let t = medians(&mut [
        &mut || assert_eq!(call(16, &words, &mut ours), (0, 1_000_000)),
        &mut || unsafe { loop_places(a, b, words.as_ptr(), places.as_mut_ptr()) },
        &mut || unsafe { loop_lists(a, b, words.as_ptr(), lists.as_mut_ptr()) },
        &mut || copy.copy_from_slice(&words),
    ]);
    assert!(ours == places && ours == lists && copy == words);
    let ms = |i: usize| t[i] * 1e3;
    println!("{name} D 16, 1,000,000 words, ms");
    print!("  proved {:.3}, two loops in C, place by place {:.3}, ratio {:.2}; ", ms(0), ms(1), t[1] / t[0]);
    println!("list by list {:.3}, ratio {:.2}; memcpy {:.3}", ms(2), t[2] / t[0], ms(3));
}

/// Prints every figure.
pub fn all() {
    row("weave", library::weave, (16, 62_500));
    row("unweave", library::unweave, (62_500, 16));
}
