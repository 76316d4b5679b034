// Words as a bit stream by shift loops, for comparison: nothing is checked.
#include <stddef.h>
#include <stdint.h>

size_t shift_pack(size_t q, const uint8_t *words, size_t count, uint8_t *out) {
    size_t held = 0, bits = 0, k = 0;
    for (size_t i = 0; i < count; i++) {
        held = held << q | words[i];
        bits += q;
        if (bits >= 8) {
            bits -= 8;
            out[k++] = (uint8_t)(held >> bits);
        }
    }
    if (bits > 0) out[k++] = (uint8_t)(held << (8 - bits));
    return k;
}

size_t shift_unpack(size_t q, const uint8_t *bytes, size_t count, uint8_t *out) {
    size_t held = 0, bits = 0, k = 0, mask = ((size_t)1 << q) - 1;
    for (size_t i = 0; i < count; i++) {
        if (bits < q) {
            held = held << 8 | bytes[k++];
            bits += 8;
        }
        bits -= q;
        out[i] = (uint8_t)(held >> bits & mask);
    }
    return k;
}
