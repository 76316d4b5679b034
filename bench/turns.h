/* One call of today's library and of an earlier one in turn, 31 rounds, the one that goes first changing from round to
 * round; medians of processor time. Answers and all bytes lent for output are compared first. */
#include <stdint.h>
#include <stdio.h>
#include <stdlib.h>
#include <string.h>
#include <time.h>

enum { ROUNDS = 31, ROOM = (1 << 20) + 64 };

typedef uint64_t Check(const uint8_t *, uint64_t);
typedef uint64_t Under(const uint8_t *, uint64_t, const uint8_t *, uint64_t, uint8_t *, uint64_t);
typedef uint64_t Stream(const uint8_t *, uint64_t, uint64_t, const uint8_t *, uint64_t, uint8_t *, uint64_t);
typedef uint64_t By(uint64_t, const uint8_t *, uint64_t, uint8_t *, uint64_t);
typedef uint64_t Unpack(uint64_t, uint64_t, const uint8_t *, uint64_t, uint8_t *, uint64_t);
typedef uint64_t Job(const uint8_t *, uint64_t, uint8_t *, uint64_t);

/* A call with its arguments; `form` says which of the functions and arguments it has. */
typedef struct {
    enum { CHECK, UNDER, STREAM, BY, UNPACK, JOB } form;
    union {
        Check *check;
        Under *under;
        Stream *stream;
        By *by;
        Unpack *unpack;
        Job *job;
    } call[2];
    const uint8_t *record;
    uint64_t record_length;
    uint64_t number, count;
    const uint8_t *input;
    uint64_t length;
} Row;

static uint64_t answer(const Row *r, int which, uint8_t *out, uint64_t room)
{
    switch (r->form) {
    case CHECK: return r->call[which].check(r->input, r->length);
    case UNDER: return r->call[which].under(r->record, r->record_length, r->input, r->length, out, room);
    case STREAM: return r->call[which].stream(r->record, r->record_length, r->count, r->input, r->length, out, room);
    case BY: return r->call[which].by(r->number, r->input, r->length, out, room);
    case UNPACK: return r->call[which].unpack(r->number, r->count, r->input, r->length, out, room);
    default: return r->call[which].job(r->input, r->length, out, room);
    }
}

static void must(int good, const char *what)
{
    if (!good) {
        fprintf(stderr, "beside: %s\n", what);
        exit(1);
    }
}

static uint8_t outputs[2][ROOM];

static double seconds(const Row *r, int which, long calls, uint64_t expected)
{
    clock_t start = clock();
    for (long i = 0; i < calls; i++)
        must(answer(r, which, outputs[0], ROOM) == expected, "another answer");
    return (double)(clock() - start) / CLOCKS_PER_SEC;
}

static int rising(const void *left, const void *right)
{
    double l = *(const double *)left, r = *(const double *)right;
    return (l > r) - (l < r);
}

/* Compares the two, then prints the medians in microseconds a call, the ratio (above 1 where today's is faster), and in
 * how many rounds today's was faster. */
static void measure(const char *call, const char *of, long count, const char *kind, const Row *r)
{
    memset(outputs, 0xa5, sizeof outputs);
    uint64_t expected = answer(r, 0, outputs[0], ROOM);
    must(answer(r, 1, outputs[1], ROOM) == expected, "the answers differ");
    must(memcmp(outputs[0], outputs[1], ROOM) == 0, "the outputs differ");
    long calls = 1;
    while (seconds(r, 1, calls, expected) < 0.004)
        calls *= 2;
    double times[2][ROUNDS];
    int faster = 0;
    for (int round = 0; round < ROUNDS; round++) {
        for (int turn = 0; turn < 2; turn++)
            times[(round + turn) % 2][round] = seconds(r, (round + turn) % 2, calls, expected) * 1e6 / (double)calls;
        faster += times[1][round] < times[0][round];
    }
    for (int which = 0; which < 2; which++)
        qsort(times[which], ROUNDS, sizeof(double), rising);
    double before = times[0][ROUNDS / 2], today = times[1][ROUNDS / 2];
    printf("%-15s %-20s %8ld %-6s  before %11.3f  today %11.3f  ratio %.3f  faster in %2d of %d\n", call, of, count,
           kind, before, today, before / today, faster, ROUNDS);
    fflush(stdout);
}
