//! Request (f), "Spreading a scratch": every input that tells with its exact answer, every depth, the order of the
//! checks, and weaving and unweaving undoing each other. The claim about scratches has a file of its own.

use reference::answer::Answer;
use reference::calls::{unweave, weave};
use reference::vectors::file::{call, UNWEAVE, WEAVE};
use reference::vectors::hex;
use reference::vectors::random::Random;
use reference::vectors::stream_borders::Call;
use reference::vectors::weaving::{depth, telling, unlike, LARGE};

/// Either call.
type Way = fn(u64, &[u8], usize) -> Answer;

const WAYS: [Way; 2] = [weave, unweave];

/// The bytes 00 to 1F woven and unwoven with D 16.
const WOVEN: &str = "00 02 04 06 08 0a 0c 0e 10 12 14 16 18 1a 1c 1e 01 03 05 07 09 0b 0d 0f 11 13 15 17 19 1b 1d 1f";
const UNWOVEN: &str = "00 10 01 11 02 12 03 13 04 14 05 15 06 16 07 17 08 18 09 19 0a 1a 0b 1b 0c 1c 0d 1d 0e 1e 0f 1f";

fn refused(refusal: u8) -> Answer {
    Answer { refusal, value: 0, output: vec![] }
}

fn done(output: &str) -> Answer {
    Answer { refusal: 0, value: hex(output).len() as u32, output: hex(output) }
}

/// The inputs that tell with their answers.
fn told() -> Vec<(Call, Answer)> {
    let six = "01 02 03 04 05 06";
    let weave = |d, words: &str, room| (WEAVE, room, depth(d), hex(words));
    let unweave = |d, words: &str, room| (UNWEAVE, room, depth(d), hex(words));
    let up_to_1f = |kind| (kind, 32, depth(16), (0..0x20).collect());
    let mut told = vec![
        (weave(2, six, 6), done("01 04 02 05 03 06")),
        (unweave(2, "01 04 02 05 03 06", 6), done(six)),
        (weave(3, six, 6), done("01 03 05 02 04 06")),
        (unweave(2, six, 6), done("01 03 05 02 04 06")),
        (up_to_1f(WEAVE), done(WOVEN)),
        (up_to_1f(UNWEAVE), done(UNWOVEN)),
        (weave(4, six, 6), refused(16)),
        (weave(4, six, 0), refused(16)),
        (weave(1, "01 02", 2), refused(16)),
        (weave(2, "01 02 03 04", 3), refused(13)),
        (weave(17, "", 0), refused(16)),
        (unweave(2, "", 0), done("")),
        (unweave(16, "", 0), done("")),
    ];
    told.extend((2..=16).map(|d| (weave(d, "", 0), done(""))));
    told
}

#[test]
fn every_input_that_tells() {
    for ((kind, room, first, second), answer) in told() {
        assert_eq!(call(kind, room, &first, &second), answer, "kind {kind}, room {room}: {first:02x?} {second:02x?}");
    }
}

/// The file's list of the inputs that tell has all of these, and no others.
#[test]
fn the_file_has_every_input_that_tells() {
    let calls = telling();
    assert!(told().iter().all(|(call, _)| calls.contains(call)));
    assert_eq!(calls.len(), told().len());
}

/// The places of D recordings: the first words of all, then the second words of all, and so on.
fn woven(d: usize, words: &[u8]) -> Vec<u8> {
    let recordings: Vec<&[u8]> = words.chunks(words.len() / d).collect();
    (0..words.len() / d).flat_map(|j| recordings.iter().map(move |recording| recording[j])).collect()
}

/// The recordings of places: of each the places that leave the same rest when divided by D.
fn unwoven(d: usize, places: &[u8]) -> Vec<u8> {
    (0..d).flat_map(|r| places.iter().skip(r).step_by(d)).copied().collect()
}

/// Both calls written a second time, for every D and every length that it divides.
#[test]
fn every_depth() {
    for d in 2..=16 {
        for length in (d..=256).step_by(d) {
            let words = unlike(length);
            assert_eq!(weave(d as u64, &words, length), Answer::written(woven(d, &words)), "{d}, {length} words");
            assert_eq!(unweave(d as u64, &words, length), Answer::written(unwoven(d, &words)), "{d}, {length} words");
        }
    }
}

/// Refusal 16 comes for exactly the depths and lengths that the request names, whatever the room.
#[test]
fn every_depth_and_length() {
    for (d, length) in (0..40).flat_map(|d| (0..150).map(move |length| (d, length))) {
        let good = (2..=16).contains(&d) && length % d == 0;
        for (way, room) in WAYS.iter().flat_map(|way| [0, length, length + 9].map(|room| (way, room))) {
            let expected = if !good { 16 } else { 13 * u8::from(room < length) };
            let answer = way(d as u64, &unlike(length), room);
            let value = if expected == 0 { length } else { 0 };
            assert_eq!((answer.refusal, answer.value as usize), (expected, value), "{d}, {length} words, room {room}");
            assert_eq!(answer.output.len(), value);
        }
    }
}

/// D is any number of 64 bits: none passes for what is left of it in fewer bits.
#[test]
fn depths_that_are_too_large() {
    let shifted = (5..64).flat_map(|bits| (2..=16).map(move |d| (1 << bits) + d));
    let negative = (0..=16).map(|d: u64| d.wrapping_neg()).skip(1);
    for d in shifted.chain(negative).chain(LARGE) {
        for (way, length) in WAYS.iter().flat_map(|way| [0, 1, 48, 210, 240].map(|length| (way, length))) {
            assert_eq!(way(d, &unlike(length), length), refused(16), "{d}, {length} words");
            assert_eq!(way(d, &unlike(length), 0), refused(16), "{d}, {length} words");
        }
    }
}

/// "16 for D out of range or a length that D does not divide, before 13."
#[test]
fn order_of_the_checks() {
    for way in WAYS {
        assert_eq!(way(0, &[], 0), refused(16), "no division by 0");
        assert_eq!(way(0, &[1], 0), refused(16));
        assert_eq!(way(1, &[], 0), refused(16));
        assert_eq!(way(17, &unlike(34), 0), refused(16), "before 13");
        assert_eq!(way(17, &unlike(34), 34), refused(16));
        assert_eq!(way(16, &unlike(34), 0), refused(16), "before 13");
        assert_eq!(way(16, &unlike(34), 34), refused(16));
        assert_eq!(way(16, &unlike(32), 0), refused(13));
        assert_eq!(way(16, &unlike(32), 31), refused(13));
        assert_eq!(way(16, &unlike(15), 32), refused(16), "fewer words than recordings");
        assert_eq!(way(16, &unlike(16), 16), Answer::written(unlike(16)), "one word of each stays");
        assert_eq!(way(2, &unlike(2), usize::MAX), Answer::written(unlike(2)));
    }
}

/// No word is compared with anything: any bytes are moved as they are.
#[test]
fn every_byte_is_moved_as_it_is() {
    for (d, count) in [(2, 256), (4, 256), (8, 256), (16, 256), (3, 255), (5, 255), (15, 255), (7, 252), (13, 247)] {
        let bytes: Vec<u8> = (0..count).map(|byte| byte as u8).collect();
        for way in WAYS {
            let mut moved = way(d, &bytes, count).output;
            moved.sort();
            assert_eq!(moved, bytes);
        }
        assert_eq!(weave(d, &vec![255; count], count).output, vec![255; count]);
    }
}

#[test]
fn each_undoes_the_other() {
    let mut random = Random::seeded(61);
    for (d, _) in (2..=16).flat_map(|d| (0..100).map(move |round| (d, round))) {
        let length = d as usize * random.below(60);
        let words = random.bytes(length, 256);
        assert_eq!(unweave(d, &weave(d, &words, length).output, length), Answer::written(words.clone()));
        assert_eq!(weave(d, &unweave(d, &words, length).output, length), Answer::written(words));
    }
}

/// Weaving D recordings of L words is unweaving L recordings of D words, where both are depths; where they are the same
/// number, either call is its own undoing.
#[test]
fn weaving_is_unweaving_with_the_numbers_exchanged() {
    for (d, words) in (2..=16).flat_map(|d| (2..=16).map(move |words| (d, words))) {
        let length = (d * words) as usize;
        let list = unlike(length);
        assert_eq!(weave(d, &list, length), unweave(words, &list, length));
        assert_eq!(weave(d, &list, length) == unweave(d, &list, length), d == words);
    }
}

/// The limit of 1,000,000 words binds the calls on streams only.
#[test]
fn more_than_a_million_words() {
    let mut random = Random::seeded(62);
    for (d, each) in [(2, 500_001), (3, 400_000), (16, 65_537)] {
        let words = random.bytes(d * each, 256);
        let places = weave(d as u64, &words, words.len());
        assert!(places == Answer::written(woven(d, &words)));
        assert!(unweave(d as u64, &places.output, words.len()) == Answer::written(words.clone()));
        assert_eq!(weave(d as u64, &words, words.len() - 1), refused(13));
        assert_eq!(weave(d as u64, &words[1..], words.len()), refused(16));
    }
}
