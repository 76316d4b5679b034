//! Records whose check takes long, two that are refused and two that are accepted; each has 128 states, p 4, q 8, m
//! 15 and a 15. The slowest accepted ones are the best that thought and the search of `slowest` have found.
use reference::constraint::Constraint;
use reference::record::Record;
use reference::table::{Entry, Table};

/// A constraint of k states that allows every word.
fn free(k: usize) -> Constraint {
    let next = |s: usize| [1, 2].map(|on| Some(((s + on) % k) as u8));
    Constraint { next: (0..k).map(next).collect() }
}

/// A record with m 15 and a 15 and a constraint of k states, word and next state by state and datum.
pub fn record(states: usize, [p, q, k]: [usize; 3], entry: impl Fn(usize, usize) -> (usize, usize)) -> Record {
    let at = |s, d| {
        let (word, next) = entry(s, d);
        Entry { word: word as u8, next }
    };
    let rows = (0..states).map(|s| (0..1 << p).map(|d| at(s, d)).collect()).collect();
    Record { p, q, m: 15, a: 15, start: 0, tail: 0, constraint: free(k), table: Table { rows } }
}

/// All states write one word: refused with 10. When it was first named it had 3,845 bytes; the tail datum of request
/// (e) has made it one longer.
pub fn one_word() -> Record {
    let record = record(128, [4, 8, 1], |s, d| (0, (s * 16 + d) % 128));
    assert_eq!(record.header().length(), 3846);
    record
}

/// The entries of states 112 to 127 below, with words that no other state has; data 14 and 15 of the last share one.
fn telling(x: usize, d: usize) -> (usize, usize) {
    match (x, d) {
        (15, 15) => (254, 112),
        (_, 0) => (x * 16, 0),
        _ => (x * 16 + d, 31 + (x * 16 + d) % 81),
    }
}

/// 97 states write word 255 for all data, and 16 then tell which datum it was: accepted. Word 255 stands on 1,567 of
/// the 2,048 entries. States 1 to 15 are a chain that nothing else enters, so that the pairs of states with equal
/// words before them grow fewer for 15 words. State 31 enters the chain of states 16 to 30 at two places, for two
/// data with one word, and which it was may show no sooner than 15 words later.
pub fn late_words() -> Record {
    record(128, [4, 8, 16], |s, d| match (s, d) {
        (112.., _) => telling(s - 112, d),
        (16..=30, 1..) => telling(s % 2, d),
        (30, 0) => (255, 114),
        (16..=29, 0) => (255, s + 1),
        (2..=15, 0) => (255, s - 1),
        (31, 0 | 1) => (255, 16 + d),
        _ => (255, 112 + d),
    })
}

/// Whether word w is in the set with this number, of 64 sets of seven words from 1 to 15. Any two of them have words
/// in both, in each alone and in neither; and each has words up to 7 and lacks some.
fn chosen(number: usize, w: usize) -> usize {
    let mut sets = (0..1 << 15).filter(|set: &usize| set % 2 == 1 && set.count_ones() == 7).skip(1);
    sets.nth(number).expect("one of 3,002") >> (w - 1) & 1
}

/// Place, copy and bit of a state of the next record, so numbered that neighbours differ.
fn parts(s: usize) -> [usize; 3] {
    [s * 9 % 16, (s / 32 + s) % 4, s / 16 % 2]
}

/// The slowest accepted record that was found for sets of pairs as bits. The place goes on by one with each block
/// until it is 15, where the words are others; at 0 it goes on for half of the data, which does not show. So any two
/// states with different places may have equal words before them, but 15 at the most. Nearly any two states have
/// equal words after them: the word says which bit comes at a place from 2 on; but word 0 leaves the bit of copy 0
/// from place 3 on, so that with each of 14 words one pair of states goes.
pub fn long_pairs() -> Record {
    record(128, [4, 8, 16], |s, d| {
        let [place, copy, bit] = parts(s);
        let (word, place_on) = if place == 0 { (d % 8, d / 8) } else { ((d + place) % 16, (place + 1) % 16) };
        let copy_on = (copy + word) % 4;
        let bit_on = match word {
            _ if place_on < 2 => bit,
            0 if copy_on == 0 && place_on > 2 => bit,
            0 => 0,
            _ => chosen(place_on * 4 + copy_on, word),
        };
        let next = (0..128).find(|&t| parts(t) == [place_on, copy_on, bit_on]).expect("a state");
        (word + place / 15 * 16, next)
    })
}

/// 64 times 2 states, each with all words from 0 to 15 for other data than its neighbour: refused with 10, as late as
/// can be. The word says which of two states comes, so that nearly any two have equal words after them and before
/// them; but word 0 does not from 1 to 31, so that with each of 31 words one pair of states goes.
pub fn turned_pairs() -> Record {
    record(128, [4, 8, 16], |s, d| {
        let (i, b, word) = (s * 33 % 64, s / 64, (s + s / 64 + d) % 16);
        let on = (i + word + 1) % 64;
        let bit_on = match word {
            0 if (1..32).contains(&on) => b,
            0 => 0,
            _ => chosen(on, word),
        };
        (word, on * 33 % 64 + 64 * bit_on)
    })
}
