// Recordings woven by two loops, for comparison: nothing is checked.
#include <stddef.h>
#include <stdint.h>

// Loops start at multiples of 32, so that their place is not the linker's choice: without this the times of these loops
// differed by a factor of two from one link to another. (They still differ from run to run; see RESULTS.md.)
#pragma GCC optimize("align-loops=32")

// a lists of b words each, one after the other: word j of list r goes to place j * a + r. Place by place.
void loop_places(size_t a, size_t b, const uint8_t *words, uint8_t *out) {
    for (size_t j = 0; j < b; j++)
        for (size_t r = 0; r < a; r++) out[j * a + r] = words[r * b + j];
}

// The same list by list.
void loop_lists(size_t a, size_t b, const uint8_t *words, uint8_t *out) {
    for (size_t r = 0; r < a; r++)
        for (size_t j = 0; j < b; j++) out[j * a + r] = words[r * b + j];
}
