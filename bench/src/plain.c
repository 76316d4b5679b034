// Encoding and decoding in plain loops, for comparison: no chains, no sets of machine words.
#include <stddef.h>
#include <stdint.h>
#include <string.h>

typedef struct {
    size_t p, q, states, memory, lookahead, tail;
    const uint8_t *word, *next; // at state * 16 + datum
} table;

// The place of the first block that is not below 2^p, or the number of blocks.
static size_t first_bad(const uint8_t *bytes, size_t count, size_t bound) {
    for (size_t i = 0; i < count; i++)
        if (bytes[i] >= bound) return i;
    return count;
}

size_t plain_encode(const table *t, const uint8_t *blocks, size_t count, uint8_t *out) {
    if (first_bad(blocks, count, (size_t)1 << t->p) < count) return 0;
    size_t s = 0;
    for (size_t i = 0; i < count; i++) {
        size_t e = s * 16 + blocks[i];
        out[i] = t->word[e];
        s = t->next[e];
    }
    for (size_t i = 0; i < t->lookahead; i++) {
        size_t e = s * 16 + t->tail;
        out[count + i] = t->word[e];
        s = t->next[e];
    }
    return count + t->lookahead;
}

// The states to which the word leads from a state of the set.
static void step(const table *t, size_t n, uint8_t w, const uint8_t *set, uint8_t *to) {
    memset(to, 0, t->states);
    for (size_t s = 0; s < t->states; s++)
        if (set[s])
            for (size_t d = 0; d < n; d++)
                if (t->word[s * 16 + d] == w) to[t->next[s * 16 + d]] = 1;
}

// The states from which the word leads into the set.
static void back(const table *t, size_t n, uint8_t w, const uint8_t *set, uint8_t *to) {
    memset(to, 0, t->states);
    for (size_t s = 0; s < t->states; s++)
        for (size_t d = 0; d < n; d++)
            if (t->word[s * 16 + d] == w && set[t->next[s * 16 + d]]) to[s] = 1;
}

static uint8_t block(const table *t, size_t n, const uint8_t *words, size_t i) {
    uint8_t past[128], ahead[128], other[128];
    memset(past, i >= t->memory, t->states);
    if (i < t->memory) past[0] = 1;
    for (size_t k = i < t->memory ? 0 : i - t->memory; k < i; k++) {
        step(t, n, words[k], past, other);
        memcpy(past, other, t->states);
    }
    memset(ahead, 1, t->states);
    for (size_t k = i + t->lookahead; k > i; k--) {
        back(t, n, words[k], ahead, other);
        memcpy(ahead, other, t->states);
    }
    uint8_t mark = 254;
    for (size_t s = 0; s < t->states; s++)
        if (past[s])
            for (size_t d = 0; d < n; d++)
                if (t->word[s * 16 + d] == words[i]) {
                    if (ahead[t->next[s * 16 + d]]) return (uint8_t)d;
                    mark = 255;
                }
    return mark;
}

size_t plain_decode(const table *t, const uint8_t *words, size_t count, uint8_t *out) {
    if (count < t->lookahead || first_bad(words, count, (size_t)1 << t->q) < count) return 0;
    for (size_t i = 0; i < count - t->lookahead; i++) out[i] = block(t, (size_t)1 << t->p, words, i);
    return count - t->lookahead;
}
