/* Compiles the (0,1) code of rate 1 to 2, records four blocks under it, and reads them back. It prints
 *   record: 24 04 00 40 23 00 41 01 01 c0 40 40
 *   words: 02 03 02 02
 *   blocks: 01 00 01 01
 * Build: gcc -std=c99 -O2 bench/example.c target/staticlib/libsbc.a -o target/example
 */
#include "../include/sbc.h"
#include <stdio.h>

static uint64_t print(const char *name, uint64_t answer, const uint8_t *bytes)
{
    if (sbc_refusal(answer) != SBC_DONE) {
        char words[SBC_PHRASE_MAX];
        uint64_t said = sbc_phrase(sbc_refusal(answer), (uint8_t *)words, sizeof words);
        printf("%s: refused %u: %.*s\n", name, sbc_refusal(answer), (int)sbc_value(said), words);
        return 0;
    }
    printf("%s:", name);
    for (uint64_t i = 0; i < sbc_value(answer); i++)
        printf(" %02x", bytes[i]);
    printf("\n");
    return sbc_value(answer);
}

int main(void)
{
    const uint8_t job[] = {0, 1, 1, 2, 1}; /* d, k, p, q, cap */
    const uint8_t data[] = {1, 0, 1, 1};
    uint8_t record[SBC_RECORD_MAX], words[sizeof data + SBC_LOOKAHEAD_MAX], blocks[sizeof words];
    uint64_t r = print("record", sbc_compile_run_length(job, sizeof job, record, sizeof record), record);
    uint64_t w = print("words", sbc_encode(record, r, data, sizeof data, words, sizeof words), words);
    print("blocks", sbc_decode(record, r, words, w, blocks, sizeof blocks), blocks);
    return 0;
}
