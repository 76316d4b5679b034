/* Proved sliding-block codes: the calls of target/staticlib/libsbc.a, which `./build library` writes.
 *
 * Needs C99 or later, or C++. Bytes go as a pointer to the first and their number, a uint64_t on every machine. Where
 * the number is 0 the pointer may be NULL: no byte is read or written there. The bytes of `out` lie apart from those
 * that the call reads: no byte is in both. Nothing is kept after a call and nothing is allocated, so calls may run at
 * the same time on different outputs. A call takes less than 128 KB of stack (measured on x86-64 by `bench/run stack`,
 * with the job 2 7 4 8 16 and its record; the listing takes most, then reading streams).
 *
 * Every call but sbc_version answers one number, the refusal times 2^56 plus a value; take it apart by `sbc_refusal`
 * and `sbc_value`. Refusal 0 is a result. The value of a result is written at each call. The value of a refusal is 0,
 * but with 11 it is the place of the first bad byte, and with every refusal of `sbc_set` the number of the first bad
 * record, both counted from 0. A value above 2^56 - 1 would be answered as 2^56 - 1.
 *
 * A result fills `out` from its first byte, and bytes past its end stay as they were. A refusal changes no byte.
 * Where several refusals hold, the first in the order written at the call is answered.
 */
#ifndef SBC_H
#define SBC_H

#include <stdint.h>

#ifdef __cplusplus
extern "C" {
#endif

/* The refusals. */
enum {
    SBC_DONE = 0,            /* none: a result */
    SBC_PARAMETERS = 1,      /* p, q or cap out of range */
    SBC_STATES = 2,          /* K, a next state, or d and k out of range */
    SBC_NO_CODE = 3,         /* no code: all weights 0 */
    SBC_TOO_HEAVY = 4,       /* the component's weights sum to over 128 */
    SBC_TOO_MANY_EDGES = 5,  /* over 2,048 edges, before any split or after one */
    SBC_NO_WINDOW = 6,       /* no window up to 15 and 15 */
    SBC_FIELD = 7,           /* record field out of range, absent state not 0, or fill not 0 */
    SBC_LENGTH = 8,          /* length is not what the fields say, or too short for them */
    SBC_DISOBEYS = 9,        /* some recording breaks the constraint */
    SBC_WINDOW_FAILS = 10,   /* the window fails */
    SBC_BAD_BYTE = 11,       /* block of 2^p or more, or word of 2^q or more, at place N: the value */
    SBC_TOO_FEW_WORDS = 12,  /* fewer than a words */
    SBC_SHORT_OUTPUT = 13,   /* the output is too short */
    SBC_TOO_MANY_PAIRS = 14, /* two constraints give more than 16 pairs of states */
    SBC_STREAM = 15,         /* over 1,000,000 words, wrong number of bytes, or fill not 0 */
    SBC_DEPTH = 16,          /* depth D is not 2 to 16, or does not divide the length */
    SBC_BAD_WEIGHTS = 17     /* weights over cap, all 0, or the inequality fails at a state */
};

/* The most words of a bit stream, closing words included. */
enum {
    SBC_WORDS_MAX = 1000000
};

/* How many bytes a bit stream of `count` words of q bits has: count x q / 8, rounded up. */
#define SBC_STREAM_SIZE(q, count) (((uint64_t)(count) * (uint64_t)(q) + 7) / 8)

/* The marks: the blocks that stand where no edge reads the words; no datum has these values. */
enum {
    /* No path through the code has the words up to and with the block's own, so this word or one before it is bad. */
    SBC_MARK_BEFORE = 254,
    /* One has, but none has the a words ahead too, so one of all these is bad. With lookahead 0 it never comes. */
    SBC_MARK_AHEAD = 255
};

/* Sizes in bytes, but the one in words. */
enum {
    /* What sbc_info writes. */
    SBC_INFO = 8,
    /* Room for the words of every refusal. */
    SBC_PHRASE_MAX = 60,
    /* The longest job: p, q, cap, K, two bytes for each of 16 states, and a weight for each. */
    SBC_JOB_MAX = 4 + 3 * 16,
    /* A run-length job that brings no weights: d, k, p, q, cap. */
    SBC_RUN_LENGTH_JOB = 5,
    /* The longest run-length job: those five, and a weight for each of 16 states. */
    SBC_RUN_LENGTH_JOB_MAX = 5 + 16,
    /* The longest job with two constraints, 69: p, q, cap, and for each K and two bytes for each of 16 states. */
    SBC_JOINED_JOB_MAX = 3 + 2 * (1 + 2 * 16),
    /* The longest record, 3,865: a header of 3 + 4 + 7 + 4 + 4 + 4 + 4 + 4 bits, two next states of 1 + 4 bits for each
     * of 16 constraint states, and a word of 8 bits with a next state of 7 for each of 128 states and 16 data. */
    SBC_RECORD_MAX = (34 + 16 * 2 * (1 + 4) + 128 * 16 * (8 + 7) + 7) / 8,
    /* In words: the most that a recording has beyond its blocks: N blocks give N + a words, and a is at most 15. */
    SBC_LOOKAHEAD_MAX = 15,
    /* The longest set: the count, and 255 of the longest records, each after its length. */
    SBC_SET_MAX = 1 + 255 * (2 + SBC_RECORD_MAX),
    /* Room for every listing, by the theorem `max-record`: 20 bytes for the first line and 21 for each of 128 * 16
     * others. */
    SBC_LISTING_MAX = 20 + 128 * 16 * 21
};

/* The refusal of an answer: 0 for a result, otherwise its number. */
static inline unsigned sbc_refusal(uint64_t answer)
{
    return (unsigned)(answer >> 56);
}

/* The value of an answer. */
static inline uint64_t sbc_value(uint64_t answer)
{
    return answer & (((uint64_t)1 << 56) - 1);
}

/* Compiles a job to a record. Since version 1.1.0 the tables of all three calls that compile carry other data than
 * before, and since version 2.0.0 a record states its tail datum: the compiler writes 0, and sbc_with_tail another. A
 * record of an older version is no longer read: it lacks the 4 bits after the constraint start.
 * job: p (1 to 4), q (1 to 8), cap (1 to 16), K (1 to 16), then for each of K states the next states for channel bits
 * 0 and 1, with 255 for none. Since version 2.3.0 a weight for each of K states may come after them. Such weights are
 * used as they are, in place of the greatest ones that the compiler finds. They must be at most cap, not all 0, and at
 * each state n times its weight must be at most the sum of the weights to which its words lead, n being 2^p.
 * out: the packed record; SBC_RECORD_MAX bytes are always enough. It lies apart from job.
 * Answers how many bytes were written.
 * Refusals in order: 8 below four bytes; 1; 2 for K; 8 for any length but 4 + 2 K and 4 + 3 K; 2 for a next state; with
 * weights 17 if they fail, without them 3; 4; 5; 6; 13. With weights 3 never comes: they say nothing of whether there
 * is a code. */
uint64_t sbc_compile(const uint8_t *job, uint64_t job_length, uint8_t *out, uint64_t out_length);

/* Compiles a run-length job to a record.
 * job: the five bytes d, k, p, q, cap, with d <= k <= 15; since version 2.3.0 a weight for each of the k + 1 states may
 * come after them, as at sbc_compile.
 * out: the packed record; SBC_RECORD_MAX bytes are always enough. It lies apart from job.
 * Answers how many bytes were written.
 * Refusals in order: 8 below five bytes; 1; 2; 8 for any length but 5 and 5 + k + 1; with weights 17 if they fail,
 * without them 3; 4; 5; 6; 13. (Before version 2.3.0 any length but five was 8, before all else.) */
uint64_t sbc_compile_run_length(const uint8_t *job, uint64_t job_length, uint8_t *out, uint64_t out_length);

/* Compiles a job with two constraints to a record for both: a channel bit is allowed when both constraints allow it.
 * job: p (1 to 4), q (1 to 8), cap (1 to 16), then each constraint: K (1 to 16), and for each of its K states the next
 * states for channel bits 0 and 1, with 255 for none. A run-length rule is written out that way.
 * The states of the record's constraint are the pairs of states that are reachable from both states 0, numbered as
 * first met, pairs walked in the order of their numbers, bit 0 before bit 1: the pair of both states 0 is state 0.
 * out: the packed record; SBC_RECORD_MAX bytes are always enough. It lies apart from job.
 * Answers how many bytes were written.
 * Refusals in order: 8 below four bytes; 1; for the first constraint 2 for K, 8 for bytes that run out, 2 for a next
 * state; for the second 8 for a missing K, 2 for K, 8 for bytes that run out or are left over, 2 for a next state; 14;
 * 3; 4; 5; 6; 13. */
uint64_t sbc_compile_joined(const uint8_t *job, uint64_t job_length, uint8_t *out, uint64_t out_length);

/* Checks a record: it is accepted when every recording under its table obeys its constraint, and its window does what
 * a window must.
 * Answers 0.
 * Refusals in order: 8 below five bytes; 7 for the header; 8; 7 for the rest; 9; 10. */
uint64_t sbc_check(const uint8_t *record, uint64_t record_length);

/* Records blocks under a record.
 * blocks: one byte each, below 2^p.
 * out: one word a byte, a more than there are blocks: the last a words are those of the record's tail datum. It lies
 * apart from record and blocks.
 * Answers how many words were written.
 * Refusals in order: those of sbc_check; 13; 11 with the place of the first bad block. */
uint64_t sbc_encode(const uint8_t *record, uint64_t record_length, const uint8_t *blocks, uint64_t blocks_length,
                    uint8_t *out, uint64_t out_length);

/* Reads words under a record by its window.
 * words: one byte each, below 2^q. Words that no recording has are read too.
 * out: one block a byte, a fewer than there are words; SBC_MARK_BEFORE or SBC_MARK_AHEAD where no edge reads the
 * words. It lies apart from record and words.
 * A bad word at i can spoil blocks i - a to i + m and no others: that is what is promised. Blocks out of this reach show
 * neither mark. A spoiled block may be wrong without a mark: marks are a hint, and no mark is no promise. sbc_verify
 * tells whether the words are a recording at all. Put a checksum over the data.
 * A recording can be read in pieces. To get blocks x to y, x at least m, hand over words x - m to y + a and drop the
 * first m blocks of the result; the others are those that the whole recording gives.
 * Answers how many blocks were written.
 * Refusals in order: those of sbc_check; 12; 13; 11 with the place of the first bad word. */
uint64_t sbc_decode(const uint8_t *record, uint64_t record_length, const uint8_t *words, uint64_t words_length,
                    uint8_t *out, uint64_t out_length);

/* Tells whether words are a recording under a record: decodes them, encodes the decoded blocks, and counts the words
 * from the first on that come back. It makes one pass, writes nothing and needs no memory for blocks.
 * words: one byte each, below 2^q.
 * Answers how many words come back, up to the first that does not; words_length exactly if the words are a recording.
 * - All of them: the words are a recording, of words_length - a blocks, and sbc_decode gives its data. It need not be
 *   the recording that was written: a damaged list can itself be a recording, and so can one that was cut. A checksum
 *   over the data stays due, and a count of blocks beside the recording.
 * - A value x below words_length: the words are no recording. The first x words can be spelled from state 0, and word x
 *   is not what encoding gives there. If the words were a recording once, the first that was changed stands at x + a or
 *   before; it can stand before x.
 * - The value says nothing of the words after word x, which may all be right: a mark ends the encoding, since a mark is
 *   no datum. It is no count of the words that differ.
 * Refusals in order: those of sbc_check; 12; 11 with the place of the first bad word. */
uint64_t sbc_verify(const uint8_t *record, uint64_t record_length, const uint8_t *words, uint64_t words_length);

/* Packs words into a bit stream: q bits a word, eight bits a byte, first bit highest, the last byte filled with 0.
 * q: 1 to 8.
 * words: one byte each, below 2^q; up to SBC_WORDS_MAX.
 * out: the stream; SBC_STREAM_SIZE(q, words_length) bytes are enough. It lies apart from words.
 * Answers how many bytes were written.
 * Refusals in order: 1 for a q out of range; 15 for over SBC_WORDS_MAX words; 13; 11 with the place of the first bad
 * word. */
uint64_t sbc_pack(uint64_t q, const uint8_t *words, uint64_t words_length, uint8_t *out, uint64_t out_length);

/* Unpacks the words of a bit stream. It undoes sbc_pack, and sbc_pack undoes it.
 * q: 1 to 8.
 * count: how many words the stream has, up to SBC_WORDS_MAX.
 * bytes: the stream, SBC_STREAM_SIZE(q, count) bytes.
 * out: one word a byte. It lies apart from bytes.
 * Answers how many words were written: count.
 * Refusals in order: 1 for a q out of range; 15 for a count over SBC_WORDS_MAX, a bytes_length other than
 * SBC_STREAM_SIZE(q, count), or a fill that is not 0; 13. */
uint64_t sbc_unpack(uint64_t q, uint64_t count, const uint8_t *bytes, uint64_t bytes_length, uint8_t *out,
                    uint64_t out_length);

/* Records blocks under a record as a bit stream: what sbc_pack makes of the words of sbc_encode.
 * blocks: one byte each, below 2^p; with the a closing words they are up to SBC_WORDS_MAX.
 * out: the stream; SBC_STREAM_SIZE(q, blocks_length + a) bytes are enough. It lies apart from record and blocks.
 * Answers how many bytes were written.
 * Refusals in order: those of sbc_check; 15 for over SBC_WORDS_MAX words, closing words included; 13; 11 with the place
 * of the first bad block. */
uint64_t sbc_encode_stream(const uint8_t *record, uint64_t record_length, const uint8_t *blocks,
                           uint64_t blocks_length, uint8_t *out, uint64_t out_length);

/* Reads the words of a bit stream under a record: what sbc_decode makes of the words of sbc_unpack. It needs no memory
 * for the words: they are unpacked in parts.
 * count: how many words the stream has, closing words included, up to SBC_WORDS_MAX.
 * stream: SBC_STREAM_SIZE(q, count) bytes.
 * out: one block a byte, a fewer than there are words; SBC_MARK_BEFORE or SBC_MARK_AHEAD where no edge reads the
 * words. It lies apart from record and stream.
 * Overwriting channel bits f to l, counted from 0, can spoil blocks f / q - a (0 if negative) to l / q + m, quotients
 * rounded down, and no others. Bits that are lost or added shift all that follow: nothing is promised of them.
 * Answers how many blocks were written.
 * Refusals in order: those of sbc_check; 15 for a count over SBC_WORDS_MAX, a stream_length other than
 * SBC_STREAM_SIZE(q, count), or a fill that is not 0; 12; 13. */
uint64_t sbc_decode_stream(const uint8_t *record, uint64_t record_length, uint64_t count, const uint8_t *stream,
                           uint64_t stream_length, uint8_t *out, uint64_t out_length);

/* Tells whether the words of a bit stream are a recording under a record: what sbc_verify tells of the words of
 * sbc_unpack. It needs no memory for the words: they are unpacked in parts.
 * count, stream: as for sbc_decode_stream.
 * Answers how many words come back, up to the first that does not; count exactly if the words are a recording. What is
 * written at sbc_verify holds here too.
 * Refusals in order: those of sbc_check; 15 as for sbc_decode_stream; 12. */
uint64_t sbc_verify_stream(const uint8_t *record, uint64_t record_length, uint64_t count, const uint8_t *stream,
                           uint64_t stream_length);

/* Weaves recordings into one another, so that a scratch across neighbouring words is shared among them.
 * depth: how many recordings, 2 to 16.
 * words: the recordings one after the other, equally many words each. Every byte is moved as it is: no q comes with the
 * call, so none is refused.
 * out: word j of recording r at place j x depth + r, all counted from 0; words_length bytes are enough. It lies apart
 * from words.
 * Overwriting at most depth neighbouring places of woven recordings with words below 2^q touches at most one word of
 * each recording, so in each at most m + a + 1 blocks can be wrong when it is unwoven and decoded. Lost or added words
 * are outside this, since they shift every recording: nothing is promised of them.
 * Answers how many words were written: words_length.
 * Refusals in order: 16 for a depth that is not 2 to 16, or does not divide words_length; 13. */
uint64_t sbc_weave(uint64_t depth, const uint8_t *words, uint64_t words_length, uint8_t *out, uint64_t out_length);

/* Unweaves recordings. It undoes sbc_weave, and sbc_weave undoes it.
 * depth: how many recordings, 2 to 16.
 * words: the woven recordings. Every byte is moved as it is, an overwritten one too.
 * out: the recordings one after the other, words_length / depth words each: word j of recording r is the one at place
 * j x depth + r; words_length bytes are enough. It lies apart from words.
 * Where at most depth neighbouring places were overwritten with words below 2^q, at most one word of each recording is
 * not as it was woven, and sbc_decode gives each with at most m + a + 1 wrong blocks.
 * Answers how many words were written: words_length.
 * Refusals in order: 16 for a depth that is not 2 to 16, or does not divide words_length; 13. */
uint64_t sbc_unweave(uint64_t depth, const uint8_t *words, uint64_t words_length, uint8_t *out, uint64_t out_length);

/* Records blocks under a record that sbc_check accepted once: refusals 9 and 10 are not looked at, and for such a
 * record it answers and writes as sbc_encode does. For any other bytes it is as safe, but what it writes need not obey
 * the constraint.
 * blocks, out: as for sbc_encode. out lies apart from record and blocks.
 * Answers how many words were written.
 * Refusals in order: those of sbc_check but 9 and 10; 13; 11 with the place of the first bad block. */
uint64_t sbc_encode_checked(const uint8_t *record, uint64_t record_length, const uint8_t *blocks,
                            uint64_t blocks_length, uint8_t *out, uint64_t out_length);

/* Reads words under a record that sbc_check accepted once: refusals 9 and 10 are not looked at, and for such a record
 * it answers and writes as sbc_decode does. For any other bytes it is as safe, but nothing is promised of the blocks.
 * words, out: as for sbc_decode. out lies apart from record and words.
 * Answers how many blocks were written.
 * Refusals in order: those of sbc_check but 9 and 10; 12; 13; 11 with the place of the first bad word. */
uint64_t sbc_decode_checked(const uint8_t *record, uint64_t record_length, const uint8_t *words, uint64_t words_length,
                            uint8_t *out, uint64_t out_length);

/* Tells the numbers of a record.
 * out: SBC_INFO bytes, one number each: p, q, states less one, m, a, K, constraint start, tail datum. It lies apart
 * from record.
 * Answers SBC_INFO.
 * Refusals in order: those of sbc_check; 13. */
uint64_t sbc_info(const uint8_t *record, uint64_t record_length, uint8_t *out, uint64_t out_length);

/* Writes a record with another tail datum, the datum with which recordings under it close. Nothing else changes: the
 * table, its window and its constraint stay, and such a record is accepted as the first one is.
 * datum: below 2^p.
 * out: the packed record, record_length bytes. It lies apart from record.
 * Answers how many bytes were written: record_length.
 * Refusals in order: those of sbc_check; 7 for a datum of 2^p or more; 13. */
uint64_t sbc_with_tail(const uint8_t *record, uint64_t record_length, uint64_t datum, uint8_t *out,
                       uint64_t out_length);

/* Checks a set of records.
 * set: one count byte, then each record after a two-byte length, most significant byte first.
 * Answers how many records the set has.
 * Refusals in order, the value being the record's number: 8 with 0 for no bytes at all; then, record by record, 8 if
 * its length or bytes are cut off, else those of sbc_check; last 8, with the count, for bytes left over. */
uint64_t sbc_set(const uint8_t *set, uint64_t set_length);

/* Lists the table of a run-length job as text.
 * job: the five bytes d, k, p, q, cap; it takes no weights.
 * out: a line with p, q, states, m and a, then a line for each state and datum with state, datum, word in binary and
 * next state; SBC_LISTING_MAX bytes are always enough. No zero byte ends it. It lies apart from job.
 * Answers how many bytes were written.
 * Refusals in order: 8 for any length but five; 1; 2; 3; 4; 5; 6; 13. */
uint64_t sbc_listing(const uint8_t *job, uint64_t job_length, uint8_t *out, uint64_t out_length);

/* Tells a refusal in words, one wording a refusal.
 * refusal: its number, as sbc_refusal gives it.
 * out: the words; SBC_PHRASE_MAX bytes are always enough. No zero byte ends them. The words of 11 end with "at place "
 * and the place, which is the answer's value, belongs after them. There are none for 0 and for a number that is no
 * refusal.
 * Answers how many bytes were written.
 * Refusal: 13. */
uint64_t sbc_phrase(uint64_t refusal, uint8_t *out, uint64_t out_length);

/* The version of the library, and no answer: 10,000 times the major number, plus 100 times the minor number, plus the
 * patch. 20300 is 2.3.0, the first whose jobs may bring weights. */
uint64_t sbc_version(void);

#ifdef __cplusplus
}
#endif

#endif
