/* Today's library and an earlier one in one process, bench/run beside EARLIER: every call of both that bench/run speed
 * times, each name of the earlier one with before_ in front. A line a row, in microseconds a call. */
#include "../include/sbc.h"
#include "turns.h"

enum { LONG = 1 << 20, STREAMED = 999000, PACKED = 1000000 };

extern Check before_sbc_check;
extern Under before_sbc_encode, before_sbc_decode, before_sbc_encode_checked, before_sbc_decode_checked;
extern Under before_sbc_encode_stream;
extern Stream before_sbc_decode_stream;
extern By before_sbc_pack, before_sbc_weave, before_sbc_unweave;
extern Unpack before_sbc_unpack;
extern Job before_sbc_compile_run_length;

static uint8_t below(unsigned bound)
{
    static uint64_t number = 88172645463325252u;
    number ^= number << 13;
    number ^= number >> 7;
    number ^= number << 17;
    return (uint8_t)((number >> 24) % bound);
}

static void fill(uint8_t *bytes, uint64_t count, unsigned bound)
{
    for (uint64_t i = 0; i < count; i++)
        bytes[i] = below(bound);
}

static uint8_t blocks[ROOM], clean[ROOM], spoiled[ROOM], stream[ROOM];

typedef struct {
    const char *name;
    uint8_t bytes[4096];
    uint64_t length;
} Record;

/* One call that takes a record, by both libraries. */
static Row under(const Record *c, Under *const call[2], const uint8_t *input, uint64_t length)
{
    Row r = {.form = UNDER, .record = c->bytes, .record_length = c->length, .input = input, .length = length};
    r.call[0].under = call[0], r.call[1].under = call[1];
    return r;
}

/* Random blocks, their recording, and random words in its place; the recording's length. */
static uint64_t record(const Record *c, long count)
{
    uint8_t info[8];
    must(sbc_info(c->bytes, c->length, info, 8) == 8, c->name);
    fill(blocks, (uint64_t)count, 1u << info[0]);
    uint64_t done = sbc_encode(c->bytes, c->length, blocks, (uint64_t)count, clean, ROOM);
    must(sbc_refusal(done) == 0, c->name);
    fill(spoiled, sbc_value(done), 1u << info[1]);
    return sbc_value(done);
}

/* Encoding so many blocks, and decoding their recording and random words in its place; with `forms` 2 also by the calls
 * that trust the record. */
static void words(const Record *c, long count, int forms)
{
    static Under *const encode[2][2] = {{before_sbc_encode, sbc_encode},
                                        {before_sbc_encode_checked, sbc_encode_checked}};
    static Under *const decode[2][2] = {{before_sbc_decode, sbc_decode},
                                        {before_sbc_decode_checked, sbc_decode_checked}};
    uint64_t length = record(c, count);
    for (int f = 0; f < forms; f++) {
        Row r = under(c, encode[f], blocks, (uint64_t)count);
        measure(f ? "encode_checked" : "encode", c->name, count, "", &r);
        for (int i = 0; i < 2; i++) {
            r = under(c, decode[f], i ? spoiled : clean, length);
            measure(f ? "decode_checked" : "decode", c->name, count, i ? "random" : "clean", &r);
        }
    }
}

/* The same of a stream. */
static void streams(const Record *c, long count)
{
    uint8_t info[8];
    uint64_t length = record(c, count);
    must(sbc_info(c->bytes, c->length, info, 8) == 8, c->name);
    Under *const encode[2] = {before_sbc_encode_stream, sbc_encode_stream};
    Row r = under(c, encode, blocks, (uint64_t)count);
    measure("encode_stream", c->name, count, "", &r);
    for (int i = 0; i < 2; i++) {
        uint64_t done = sbc_pack(info[1], i ? spoiled : clean, length, stream, ROOM);
        must(sbc_refusal(done) == 0, "packing");
        r.form = STREAM, r.count = length, r.input = stream, r.length = sbc_value(done);
        r.call[0].stream = before_sbc_decode_stream, r.call[1].stream = sbc_decode_stream;
        measure("decode_stream", c->name, count, i ? "random" : "clean", &r);
    }
}

/* Packing, unpacking, weaving and unweaving a million words. */
static void plain(void)
{
    char of[24];
    for (unsigned q = 1; q <= 8; q++) {
        fill(clean, PACKED, 1u << q);
        sprintf(of, "words of %u bits", q);
        Row r = {.form = BY, .number = q, .input = clean, .length = PACKED};
        r.call[0].by = before_sbc_pack, r.call[1].by = sbc_pack;
        measure("pack", of, PACKED, "", &r);
        uint64_t size = sbc_value(sbc_pack(q, clean, PACKED, stream, ROOM));
        r = (Row){.form = UNPACK, .number = q, .count = PACKED, .input = stream, .length = size};
        r.call[0].unpack = before_sbc_unpack, r.call[1].unpack = sbc_unpack;
        measure("unpack", of, PACKED, "", &r);
    }
    Row r = {.form = BY, .number = 16, .input = clean, .length = PACKED};
    r.call[0].by = before_sbc_weave, r.call[1].by = sbc_weave;
    measure("weave", "D 16", PACKED, "", &r);
    r.call[0].by = before_sbc_unweave, r.call[1].by = sbc_unweave;
    measure("unweave", "D 16", PACKED, "", &r);
}

static Record compiled(const char *name, const uint8_t job[5])
{
    Record c = {.name = name};
    Row r = {.form = JOB, .input = job, .length = 5};
    r.call[0].job = before_sbc_compile_run_length, r.call[1].job = sbc_compile_run_length;
    measure("compile", name, 1, "", &r);
    uint64_t done = sbc_compile_run_length(job, 5, c.bytes, sizeof c.bytes);
    must(sbc_refusal(done) == 0, name);
    c.length = sbc_value(done);
    return c;
}

static Record ready(const char *name)
{
    Record c = {.name = name};
    char path[64];
    snprintf(path, sizeof path, "records/%s.sbc", name);
    FILE *file = fopen(path, "rb");
    must(file != NULL, path);
    c.length = fread(c.bytes, 1, sizeof c.bytes, file);
    fclose(file);
    return c;
}

int main(void)
{
    const Record records[] = {
        {"E2", {0x24, 0x04, 0x40, 0x40, 0x23, 0x00, 0x41, 0x01, 0x01, 0x80, 0xe0, 0x00}, 12},
        compiled("0 1 2 3 2 (listed)", (const uint8_t[]){0, 1, 2, 3, 2}),
        ready("listed-first-0-1"),
        ready("mfm-1-3"),
        ready("ach-2-7"),
        compiled("1 7 2 3 3", (const uint8_t[]){1, 7, 2, 3, 3}),
        compiled("2 7 1 2 4", (const uint8_t[]){2, 7, 1, 2, 4}),
        compiled("1 3 1 2 1", (const uint8_t[]){1, 3, 1, 2, 1}),
        compiled("1 13 4 6 9", (const uint8_t[]){1, 13, 4, 6, 9}),
        compiled("2 7 4 8 16", (const uint8_t[]){2, 7, 4, 8, 16}),
    };
    for (size_t i = 0; i < sizeof records / sizeof *records; i++) {
        Row r = {.form = CHECK, .input = records[i].bytes, .length = records[i].length};
        r.call[0].check = before_sbc_check, r.call[1].check = sbc_check;
        measure("check", records[i].name, 1, "", &r);
        words(&records[i], 32, 2);
        words(&records[i], 512, 2);
        streams(&records[i], 32);
        words(&records[i], LONG, 1);
        streams(&records[i], STREAMED);
    }
    plain();
    return 0;
}
