//! The refusals of "When the workshop declines" and of requests (a), (b), (e), (f) and (h), by their numbers, and the
//! answer of a call.

/// A refusal's number in the document's table, or in the request that adds it.
pub type Refusal = u8;

/// p, q or cap out of range.
pub const PARAMETER: Refusal = 1;
/// K, a next state, or d and k out of range.
pub const CONSTRAINT: Refusal = 2;
/// All weights 0; never said where weights are brought.
pub const NO_WEIGHTS: Refusal = 3;
/// The component's weights sum over 128.
pub const WEIGHT_SUM: Refusal = 4;
/// The component has over 2,048 edges, before any split or after one.
pub const EDGES: Refusal = 5;
/// No window up to 15 and 15.
pub const NO_WINDOW: Refusal = 6;
/// Record field out of range, absent state not 0, or fill not 0; "a tail datum of 2^p or more" (request (e)), in a
/// record or given for one.
pub const FIELD: Refusal = 7;
/// Length is not what the fields say, or too short for them.
pub const LENGTH: Refusal = 8;
/// Some recording breaks the constraint.
pub const BREAKS: Refusal = 9;
/// The window fails.
pub const WINDOW_FAILS: Refusal = 10;
/// Block at least 2^p, or word at least 2^q.
pub const BAD_BYTE: Refusal = 11;
/// Fewer than a words.
pub const FEW_WORDS: Refusal = 12;
/// Lent output too short.
pub const ROOM: Refusal = 13;
/// More than 16 pairs (request (a)).
pub const PAIRS: Refusal = 14;
/// A word count over the limit, a byte length other than count × q / 8 rounded up, or a fill that is not 0 (request
/// (b)).
pub const STREAM: Refusal = 15;
/// D out of range or a length that D does not divide (request (f)).
pub const DEPTH: Refusal = 16;
/// Weights brought with a job that fail (request (h)).
pub const WEIGHTS_FAIL: Refusal = 17;

/// What a call answers.
///
/// `value` is the number of bytes written; for a good set, its count; for verified words, how many in front come back;
/// with refusal 11, the place of the first bad byte; with a set's refusal, the number of the record at which the walk
/// ended; with any other refusal, 0.
/// `output` is what the call writes from the first lent byte on; it is empty when the call is refused.
#[derive(Clone, Debug, PartialEq, Eq)]
pub struct Answer {
    pub refusal: Refusal,
    pub value: u32,
    pub output: Vec<u8>,
}

impl Answer {
    /// The call is done and wrote these bytes.
    pub fn written(output: Vec<u8>) -> Self {
        Answer { refusal: 0, value: output.len() as u32, output }
    }

    /// The call is done and answers a number.
    pub fn number(value: usize) -> Self {
        Answer { refusal: 0, value: value as u32, output: Vec::new() }
    }

    /// The call is refused, with a place or a record's number where the document gives one.
    pub fn refused(refusal: Refusal, value: usize) -> Self {
        Answer { refusal, value: value as u32, output: Vec::new() }
    }

    /// The result if it fits the lent output, else refusal 13.
    pub fn fitted(output: Vec<u8>, room: usize) -> Self {
        if output.len() > room {
            return Answer::refused(ROOM, 0);
        }
        Answer::written(output)
    }
}
