//! Request (h), "Bring your own weights": every input that tells with its exact answer, the paper's table, our own
//! weights brought, and the order of the checks. The claims have a file of their own.

use reference::accept::load;
use reference::answer::Answer;
use reference::calls::{compile_job, compile_joined, compile_run_length, listing};
use reference::component::component;
use reference::job::Job;
use reference::record::Record;
use reference::split::split_all;
use reference::vectors::bringing::{self, with_weights, BOTH};
use reference::vectors::file::{call, COMPILE_JOB, COMPILE_JOINED, COMPILE_RUN_LENGTH, LISTING};
use reference::vectors::fixed::heavy;
use reference::vectors::hex;
use reference::weights::{greatest, greatest_below, passes};

/// What the table of the inputs that tell gives.
enum Told {
    Refused(u8),
    Done(&'static str),
    /// The record of this job without weights, of the same kind.
    RecordOf(&'static str),
    /// The listing program's text.
    Text(&'static str),
}

use Told::{Done, RecordOf, Refused, Text};

/// The record of (0,1), 1 to 2.
const TWO_STATES: &str = "24 04 00 40 23 00 41 01 01 c0 40 40";

/// "The table that they give under our splits": the record of the paper's weights.
const PAPER: &str =
    "24 50 d1 c0 22 09 02 70 a4 2b 0b 42 f0 04 00 40 80 18 25 00 8f 40 23 d0 08 f4 02 3d 00 8f 80 c2 81 \
                     61 10 60 49 00 8f 03 40 40 f0 10 24 04 0b 01 06 84 c1 c1 48 54 42 15 10 85 44 21 51 00";

const TELLING: [(u8, &str, Told); 27] = [
    (COMPILE_JOINED, "01 02 01 02 01 00 ff 00 02 01 00 ff 00 01 01", Refused(8)),
    (COMPILE_RUN_LENGTH, "00 01 05 02 01 00", Refused(1)),
    (COMPILE_RUN_LENGTH, "03 02 01 02 01 00", Refused(2)),
    (COMPILE_RUN_LENGTH, "00 01 01 02 01 00", Refused(8)),
    (COMPILE_JOB, "01 02 01 02 01 00 ff 00", Done(TWO_STATES)),
    (COMPILE_JOB, "01 02 01 02 01 00 ff 00 01 01", Done(TWO_STATES)),
    (COMPILE_JOB, "01 02 01 02 01 00 ff 00 01", Refused(8)),
    (COMPILE_RUN_LENGTH, "00 01 01 02 01 01 00", Done("24 00 00 40 23 00 41 01 80")),
    (
        COMPILE_RUN_LENGTH,
        "00 07 01 08 01 00 01 00 00 00 00 00 00",
        Done("30 00 01 c4 23 09 42 70 a4 2b 0b 42 f0 04 00 80 03 00"),
    ),
    (COMPILE_RUN_LENGTH, "00 01 02 03 01 00 00", Refused(17)),
    (COMPILE_RUN_LENGTH, "00 01 02 03 01 01 01", Refused(17)),
    (COMPILE_RUN_LENGTH, "00 01 02 03 01", Refused(3)),
    (COMPILE_RUN_LENGTH, "02 07 01 02 03 02 03 04 04 03 03 01 01", Refused(17)),
    (COMPILE_RUN_LENGTH, "00 01 01 02 01 02 02", Refused(17)),
    (COMPILE_RUN_LENGTH, "00 01 01 02 02 02 02", Done(TWO_STATES)),
    (COMPILE_JOB, "02 03 02 02 01 00 00 07 00 00", Refused(2)),
    (
        COMPILE_JOB,
        "01 01 10 09 00 01 00 02 00 03 00 04 00 05 00 06 00 07 00 08 00 00 10 10 10 10 10 10 10 10 10",
        Refused(4),
    ),
    (
        COMPILE_JOB,
        "01 01 10 09 00 01 00 02 00 03 00 04 00 05 00 06 00 07 00 08 00 00 01 01 01 01 01 01 01 01 01",
        RecordOf("01 01 01 09 00 01 00 02 00 03 00 04 00 05 00 06 00 07 00 08 00 00"),
    ),
    (COMPILE_RUN_LENGTH, "00 0f 01 08 01 01 01 01 01 01 01 01 01 01 01 01 01 01 01 01 01", Refused(5)),
    (COMPILE_JOB, "02 03 02 02 01 00 00 ff 02 01", Refused(6)),
    (COMPILE_RUN_LENGTH, "00 01 01 02 01 01 01", Done(TWO_STATES)),
    (LISTING, "00 01 01 02 01 01 01", Text("refused 8\n")),
    (LISTING, "00 01 05 02 01 00", Text("refused 8\n")),
    (COMPILE_RUN_LENGTH, "00 01 01 02 01 00 01", Refused(17)),
    (COMPILE_RUN_LENGTH, "02 07 01 02 04 02 03 04 04 03 03 01 01", Done(PAPER)),
    (COMPILE_RUN_LENGTH, "02 07 01 02 04 02 03 04 04 03 03 02 01", RecordOf("02 07 01 02 04")),
    (COMPILE_RUN_LENGTH, "02 07 01 02 04", RecordOf("02 07 01 02 04")),
];

fn refused(refusal: u8) -> Answer {
    Answer { refusal, value: 0, output: vec![] }
}

fn run_length(job: &str) -> u8 {
    compile_run_length(&hex(job), 4096).refusal
}

fn general(job: &str) -> u8 {
    compile_job(&hex(job), 4096).refusal
}

/// With the exact room, with one byte less, with room to spare; a refusal with room and with none.
#[test]
fn every_input_that_tells() {
    for (kind, text, told) in &TELLING {
        let answer = |room: usize| call(*kind, room, &hex(text), &[]);
        let output = match told {
            Refused(number) => {
                [4096, 0].iter().for_each(|room| assert_eq!(answer(*room), refused(*number), "{text}"));
                continue;
            }
            Done(record) => hex(record),
            RecordOf(job) => call(*kind, 4096, &hex(job), &[]).output,
            Text(text) => text.as_bytes().to_vec(),
        };
        assert_eq!(answer(output.len() - 1), refused(13), "{text}");
        let done = Answer { refusal: 0, value: output.len() as u32, output };
        [done.output.len(), 4096].iter().for_each(|room| assert_eq!(answer(*room), done, "{text}"));
    }
}

/// What is told of the room: 17 before 13, and 13 for 8 bytes.
#[test]
fn the_rooms_that_tell() {
    assert_eq!(compile_run_length(&hex("00 01 01 02 01 02 02"), 0), refused(17));
    assert_eq!(compile_run_length(&hex("00 01 01 02 01 01 00"), 8), refused(13));
}

#[test]
fn the_file_has_every_input_that_tells() {
    let told: Vec<(u8, &str)> = TELLING.iter().map(|(kind, job, _)| (*kind, *job)).collect();
    assert_eq!(bringing::TELLING.to_vec(), told);
}

/// The record of a run-length job and how many splits it took.
fn compiled(job: &str) -> (Record, usize) {
    let read = Job::run_length(&hex(job)).unwrap();
    let (graph, _) = component(&read).unwrap();
    let states = graph.weight.len();
    let splits = split_all(graph, read.n()).unwrap().weight.len() - states;
    (load(&compile_run_length(&hex(job), 4096).output).unwrap(), splits)
}

/// "Weights 2 3 4 4 3 3 1 1, one less in total than ours", and what the inputs tell of both tables.
#[test]
fn the_paper_s_table() {
    let (paper, splits) = compiled("02 07 01 02 04 02 03 04 04 03 03 01 01");
    assert_eq!((splits, paper.table.states(), paper.m, paper.a, paper.pack().len()), (13, 21, 3, 4, 62));
    assert_eq!(paper.pack(), hex(PAPER));
    let (ours, splits) = compiled("02 07 01 02 04");
    assert_eq!((splits, ours.table.states(), ours.m, ours.a, ours.pack().len()), (14, 22, 3, 4, 64));
    assert_eq!(ours.pack()[..6], hex("24 54 d1 c0 22 09"));
    let job = Job::run_length(&hex("02 07 01 02 04")).unwrap();
    assert_eq!(greatest(&job), [2, 3, 4, 4, 3, 3, 2, 1]);
    assert_eq!(greatest_below(&job, vec![2, 3, 4, 4, 3, 3, 1, 1]), [2, 3, 4, 4, 3, 3, 1, 1]);
}

/// Our own weights brought give the record that no weights give.
#[test]
fn our_own_weights() {
    for five in ["00 01 01 02 01", "00 01 02 03 02", "02 07 01 02 04", "01 03 01 02 01", "01 07 02 03 03"] {
        let job = Job::run_length(&hex(five)).unwrap();
        let brought = with_weights(&hex(five), &greatest(&job));
        let answer = compile_run_length(&brought, 4096);
        assert_eq!((answer.refusal, &answer), (0, &compile_run_length(&hex(five), 4096)), "{five}");
    }
}

#[test]
fn what_the_inputs_tell() {
    let record = |place: usize| load(&compile_run_length(&hex(TELLING[place].1), 4096).output).unwrap();
    assert_eq!((record(7).table.states(), record(7).constraint.states()), (1, 2), "one state");
    assert_eq!(record(8).start, 1, "the constraint start");
    assert_eq!(TELLING[16].1, format!("{}{}", spaced(&heavy(9)), spaced(&[16; 9])).trim_end(), "the row of refusal 4");
}

/// Bytes in hexadecimal, a blank behind each.
fn spaced(bytes: &[u8]) -> String {
    bytes.iter().map(|byte| format!("{byte:02x} ")).collect()
}

#[test]
fn order_of_a_job_with_weights() {
    assert_eq!(general("05 02 01"), 8, "8 below four bytes");
    assert_eq!(general("05 02 01 00 01 00 07 00 02 02"), 1, "1 before K");
    assert_eq!(general("01 02 01 00 01 00 07 00 02 02"), 2, "K before its 8");
    assert_eq!(general("01 02 01 02 01 00 07 00 02"), 8, "8 before a next state");
    assert_eq!(general("01 02 01 02 01 00 07 00 02 02"), 2, "a next state before 17");
    assert_eq!(general("01 02 01 02 01 00 ff 00 02 02"), 17);
    assert_eq!(general("01 01 01 01 ff ff 00"), 17, "17 where 3 would come");
    assert_eq!(general("01 01 01 01 ff ff"), 3);
    assert_eq!(compile_job(&hex("02 03 02 02 01 00 00 ff 02 01"), 0), refused(6), "6 before 13");
    assert_eq!(compile_job(&hex("01 01 01 01 00 00 01"), 0), refused(13));
}

#[test]
fn order_of_a_run_length_job_with_weights() {
    assert_eq!(run_length("03 02 05 02"), 8, "8 below five bytes");
    assert_eq!(run_length("03 02 05 02 01 07"), 1, "1 before 2");
    assert_eq!(run_length("03 02 01 02 01 07"), 2, "2 before the later 8");
    assert_eq!(run_length("00 10 01 02 01 01 01 01 01 01 01 01 01 01 01 01 01 01 01 01 01 01"), 2);
    assert_eq!(run_length("00 02 01 02 01 07 07"), 8, "the later 8 before 17");
    assert_eq!(run_length("00 02 01 02 01 07 07 07 07"), 8);
    assert_eq!(run_length("00 02 01 02 01 07 07 07"), 17);
    assert_eq!(run_length("00 02 01 02 01 01 01 01"), 0);
    assert_eq!(compile_run_length(&[&[0, 15, 1, 8, 1][..], &[1; 16]].concat(), 0), refused(5), "5 before 13");
}

/// The listing refuses by the length alone, whatever else is wrong.
#[test]
fn the_listing_reads_five_bytes() {
    for job in
        ["", "00 01 05 02", "00 01 05 02 01 00", "03 02 01 02 01 00", "00 01 01 02 01 01 01", "00 01 01 02 01 00 00"]
    {
        assert_eq!(listing(&hex(job), 10).output, b"refused 8\n", "{job}");
    }
    assert_eq!(listing(&hex("00 01 05 02 01"), 10).output, b"refused 1\n");
    assert_eq!(listing(&hex("00 01 02 03 01"), 10).output, b"refused 3\n");
}

/// The same bytes are a job with weights 1 0 0 and a joined job whose second rule allows all.
#[test]
fn bytes_of_both_kinds() {
    let (general, joined) = (compile_job(&hex(BOTH), 4096), compile_joined(&hex(BOTH), 4096));
    assert_eq!((general.refusal, joined.refusal), (0, 0));
    assert_eq!(joined, compile_run_length(&[0, 2, 1, 2, 1], 4096));
    assert_eq!(general, compile_run_length(&[0, 2, 1, 2, 1, 1, 0, 0], 4096));
    assert_ne!(general, joined);
}

/// A vector of another length than K does not pass.
#[test]
fn one_weight_a_state() {
    let job = Job::run_length(&[0, 1, 1, 2, 1]).unwrap();
    assert!(passes(&job, &[1, 1]) && passes(&job, &[1, 0]));
    for weights in [&[][..], &[1], &[1, 1, 0], &[1, 1, 1], &[0, 0], &[0, 1], &[u32::MAX, 1], &[1, u32::MAX]] {
        assert!(!passes(&job, weights), "{weights:?}");
    }
}
