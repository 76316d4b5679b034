//! Damage to a record, field by field, to lists of words, to the channel bits of a stream, and to neighbouring places.

use super::random::Random;
use crate::record::Record;

/// The number of fields in front, from p to the constraint start; the tail datum comes behind them.
pub const IN_FRONT: usize = 7;

/// The place of the tail datum among the fields (request (e)).
pub const TAIL: usize = 7;

/// The widths of the fields of a good record, without the fill.
pub fn widths(record: &Record) -> Vec<usize> {
    let mut widths = vec![3, 4, 7, 4, 4, 4, 4, 4];
    (0..record.constraint.states() * 2).for_each(|_| widths.extend([1, 4]));
    (0..record.table.states() << record.p).for_each(|_| widths.extend([record.q, 7]));
    widths
}

/// The first bit and the width of every field of a good record, the fill (if any) last.
pub fn fields(record: &Record) -> Vec<(usize, usize)> {
    let mut widths = widths(record);
    let bits: usize = widths.iter().sum();
    let fill = bits.next_multiple_of(8) - bits;
    widths.extend((fill > 0).then_some(fill));
    let mut first = 0;
    let place = |width: usize| {
        first += width;
        (first - width, width)
    };
    widths.into_iter().map(place).collect()
}

/// The fields but the tail datum, which has cases of its own.
pub fn other_fields(record: &Record) -> Vec<(usize, usize)> {
    let mut fields = fields(record);
    fields.remove(TAIL);
    fields
}

/// The bytes with one field set.
pub fn with_field(bytes: &[u8], (first, width): (usize, usize), value: usize) -> Vec<u8> {
    let mut changed = bytes.to_vec();
    for place in 0..width {
        let bit = first + place;
        let mask = 0x80 >> (bit % 8);
        changed[bit / 8] &= !mask;
        if value >> (width - 1 - place) & 1 == 1 {
            changed[bit / 8] |= mask;
        }
    }
    changed
}

/// The value of one field.
pub fn field(bytes: &[u8], (first, width): (usize, usize)) -> usize {
    let bit = |place: usize| usize::from(bytes[place / 8] >> (7 - place % 8) & 1);
    (first..first + width).fold(0, |value, place| value << 1 | bit(place))
}

/// A list of words with one or a few kinds of damage: words changed, taken out, put in, cut off, added, or the
/// list begun late.
pub fn words(random: &mut Random, recording: &[u8], q: usize) -> Vec<u8> {
    let mut words = recording.to_vec();
    for _ in 0..random.within(1, 2) {
        let length = words.len();
        let word = random.below(1 << q) as u8;
        let place = random.below(length.max(1));
        match random.below(6) {
            0 | 1 if length > 0 => words[place] = word,
            2 if length > 0 => drop(words.remove(place)),
            3 => words.insert(place.min(length), word),
            4 => words.truncate(place),
            5 if length > 3 => words = words[place / 2..].to_vec(),
            _ => words.extend(random.bytes(3, 1 << q)),
        }
    }
    words
}

/// A stream with bits f to l, both included, overwritten: by 0, by 1, turned over, or at random.
pub fn bits(random: &mut Random, stream: &[u8], f: usize, l: usize) -> Vec<u8> {
    let way = random.below(4);
    let mut damaged = stream.to_vec();
    for place in f..=l {
        let old = field(stream, (place, 1));
        let bit = [0, 1, 1 - old, random.below(2)][way];
        damaged = with_field(&damaged, (place, 1), bit);
    }
    damaged
}

/// Places f to l, both included, overwritten with words below 2^q: by one word throughout, each by another word than it
/// was, or at random.
pub fn scratch(random: &mut Random, places: &[u8], (f, l): (usize, usize), q: usize) -> Vec<u8> {
    let way = random.below(3);
    let (n, one) = (1 << q, random.below(1 << q));
    let mut damaged = places.to_vec();
    for word in &mut damaged[f..=l] {
        let other = (usize::from(*word) + random.within(1, n - 1)) % n;
        *word = [one, other, random.below(n)][way] as u8;
    }
    damaged
}
