/* Every call with NULL where it is lent no byte, and with no room: what each answers. It ends with status 0 and prints
 * nothing if all is as written here.
 * Build: gcc -std=c99 -O2 bench/nulls.c target/staticlib/libsbc.a -o target/nulls
 */
#include "../include/sbc.h"
#include <stdio.h>

static int bad = 0;

static void expect(const char *what, uint64_t answer, unsigned refusal, uint64_t value)
{
    if (sbc_refusal(answer) != refusal || sbc_value(answer) != value) {
        printf("%s: refusal %u and not %u\n", what, sbc_refusal(answer), refusal);
        bad = 1;
    }
}

int main(void)
{
    const uint8_t job[] = {0, 1, 2, 3, 2};
    const uint8_t joined[] = {1, 2, 1, 1, 0, 0, 1, 0, 0};
    const uint8_t word[] = {3};
    uint8_t record[SBC_RECORD_MAX], plain[SBC_RECORD_MAX], out[SBC_PHRASE_MAX];
    uint64_t r = sbc_value(sbc_compile_run_length(job, sizeof job, record, sizeof record));
    uint64_t n = sbc_value(sbc_compile_joined(joined, sizeof joined, plain, sizeof plain));
    expect("compile, no job", sbc_compile(NULL, 0, out, sizeof out), SBC_LENGTH, 0);
    expect("run-length, no job", sbc_compile_run_length(NULL, 0, out, sizeof out), SBC_LENGTH, 0);
    expect("run-length, no room", sbc_compile_run_length(job, sizeof job, NULL, 0), SBC_SHORT_OUTPUT, 0);
    expect("joined, no job", sbc_compile_joined(NULL, 0, out, sizeof out), SBC_LENGTH, 0);
    expect("joined, no room", sbc_compile_joined(joined, sizeof joined, NULL, 0), SBC_SHORT_OUTPUT, 0);
    expect("listing, no job", sbc_listing(NULL, 0, out, sizeof out), SBC_LENGTH, 0);
    expect("listing, no room", sbc_listing(job, sizeof job, NULL, 0), SBC_SHORT_OUTPUT, 0);
    expect("check", sbc_check(NULL, 0), SBC_LENGTH, 0);
    expect("set", sbc_set(NULL, 0), SBC_LENGTH, 0);
    expect("encode, no record", sbc_encode(NULL, 0, NULL, 0, NULL, 0), SBC_LENGTH, 0);
    expect("encode, no block", sbc_encode(record, r, NULL, 0, out, sizeof out), SBC_DONE, 1);
    expect("encode, no room", sbc_encode(record, r, NULL, 0, NULL, 0), SBC_SHORT_OUTPUT, 0);
    expect("decode, no word", sbc_decode(record, r, NULL, 0, NULL, 0), SBC_TOO_FEW_WORDS, 0);
    expect("decode to no block", sbc_decode(record, r, word, sizeof word, NULL, 0), SBC_DONE, 0);
    expect("encode_checked, no record", sbc_encode_checked(NULL, 0, NULL, 0, NULL, 0), SBC_LENGTH, 0);
    expect("encode_checked, no block", sbc_encode_checked(record, r, NULL, 0, out, sizeof out), SBC_DONE, 1);
    expect("decode_checked to no block", sbc_decode_checked(record, r, word, sizeof word, NULL, 0), SBC_DONE, 0);
    expect("pack, no q", sbc_pack(0, NULL, 0, NULL, 0), SBC_PARAMETERS, 0);
    expect("pack, no word", sbc_pack(3, NULL, 0, NULL, 0), SBC_DONE, 0);
    expect("pack, no room", sbc_pack(3, word, sizeof word, NULL, 0), SBC_SHORT_OUTPUT, 0);
    expect("pack", sbc_pack(3, word, sizeof word, out, sizeof out), SBC_DONE, SBC_STREAM_SIZE(3, 1));
    expect("unpack, a large q", sbc_unpack(~(uint64_t)0, 0, NULL, 0, NULL, 0), SBC_PARAMETERS, 0);
    expect("unpack, no word", sbc_unpack(8, 0, NULL, 0, NULL, 0), SBC_DONE, 0);
    expect("unpack, a large count", sbc_unpack(8, ~(uint64_t)0, NULL, 0, NULL, 0), SBC_STREAM, 0);
    expect("unpack, no room", sbc_unpack(3, 1, out, 1, NULL, 0), SBC_SHORT_OUTPUT, 0);
    expect("encode_stream, no record", sbc_encode_stream(NULL, 0, NULL, 0, NULL, 0), SBC_LENGTH, 0);
    expect("encode_stream, no block", sbc_encode_stream(record, r, NULL, 0, out, sizeof out), SBC_DONE, 1);
    expect("encode_stream, no room", sbc_encode_stream(record, r, NULL, 0, NULL, 0), SBC_SHORT_OUTPUT, 0);
    expect("decode_stream, no record", sbc_decode_stream(NULL, 0, 0, NULL, 0, NULL, 0), SBC_LENGTH, 0);
    expect("decode_stream, no word", sbc_decode_stream(record, r, 0, NULL, 0, NULL, 0), SBC_TOO_FEW_WORDS, 0);
    expect("decode_stream, a word too many", sbc_decode_stream(record, r, SBC_WORDS_MAX + 1, NULL, 0, NULL, 0),
           SBC_STREAM, 0);
    expect("decode_stream to no block", sbc_decode_stream(record, r, 1, out, 1, NULL, 0), SBC_DONE, 0);
    expect("verify, no record", sbc_verify(NULL, 0, NULL, 0), SBC_LENGTH, 0);
    expect("verify, no word", sbc_verify(record, r, NULL, 0), SBC_TOO_FEW_WORDS, 0);
    expect("verify, no word, no lookahead", sbc_verify(plain, n, NULL, 0), SBC_DONE, 0);
    expect("verify", sbc_verify(record, r, word, sizeof word), SBC_DONE, sizeof word);
    expect("verify_stream, no record", sbc_verify_stream(NULL, 0, 0, NULL, 0), SBC_LENGTH, 0);
    expect("verify_stream, no word", sbc_verify_stream(record, r, 0, NULL, 0), SBC_TOO_FEW_WORDS, 0);
    expect("verify_stream, no word, no lookahead", sbc_verify_stream(plain, n, 0, NULL, 0), SBC_DONE, 0);
    expect("verify_stream, a word too many", sbc_verify_stream(record, r, SBC_WORDS_MAX + 1, NULL, 0), SBC_STREAM, 0);
    expect("verify_stream", sbc_verify_stream(record, r, 1, out, 1), SBC_DONE, 1);
    expect("weave, no word", sbc_weave(2, NULL, 0, NULL, 0), SBC_DONE, 0);
    expect("weave, no word, depth 17", sbc_weave(17, NULL, 0, NULL, 0), SBC_DEPTH, 0);
    expect("weave, a large depth", sbc_weave(~(uint64_t)0, NULL, 0, NULL, 0), SBC_DEPTH, 0);
    expect("weave, no room", sbc_weave(5, job, sizeof job, NULL, 0), SBC_SHORT_OUTPUT, 0);
    expect("weave, room for three of four", sbc_weave(2, job, 4, out, 3), SBC_SHORT_OUTPUT, 0);
    expect("weave, a bad length and no room", sbc_weave(4, joined, 6, NULL, 0), SBC_DEPTH, 0);
    expect("weave", sbc_weave(5, job, sizeof job, out, sizeof out), SBC_DONE, sizeof job);
    expect("unweave, no word", sbc_unweave(2, NULL, 0, NULL, 0), SBC_DONE, 0);
    expect("unweave, no word, depth 17", sbc_unweave(17, NULL, 0, NULL, 0), SBC_DEPTH, 0);
    expect("unweave, a large depth", sbc_unweave(~(uint64_t)0, NULL, 0, NULL, 0), SBC_DEPTH, 0);
    expect("unweave, no room", sbc_unweave(5, job, sizeof job, NULL, 0), SBC_SHORT_OUTPUT, 0);
    expect("unweave, room for three of four", sbc_unweave(2, job, 4, out, 3), SBC_SHORT_OUTPUT, 0);
    expect("unweave, a bad length and no room", sbc_unweave(4, joined, 6, NULL, 0), SBC_DEPTH, 0);
    expect("unweave", sbc_unweave(5, job, sizeof job, out, sizeof out), SBC_DONE, sizeof job);
    expect("info, no record", sbc_info(NULL, 0, out, sizeof out), SBC_LENGTH, 0);
    expect("info, no room", sbc_info(record, r, NULL, 0), SBC_SHORT_OUTPUT, 0);
    expect("with_tail, no record", sbc_with_tail(NULL, 0, 1, out, sizeof out), SBC_LENGTH, 0);
    expect("with_tail, a large datum", sbc_with_tail(record, r, ~(uint64_t)0, out, sizeof out), SBC_FIELD, 0);
    expect("with_tail, no room", sbc_with_tail(record, r, 1, NULL, 0), SBC_SHORT_OUTPUT, 0);
    expect("with_tail", sbc_with_tail(record, r, 3, out, sizeof out), SBC_DONE, r);
    expect("phrase, no room", sbc_phrase(SBC_NO_CODE, NULL, 0), SBC_SHORT_OUTPUT, 0);
    expect("phrase of no refusal", sbc_phrase(SBC_DONE, NULL, 0), SBC_DONE, 0);
    expect("phrase of a large number", sbc_phrase(~(uint64_t)0, NULL, 0), SBC_DONE, 0);
    return bad;
}
