// Prints event lines of COUNT requests whose hashes by the default hasher, whose seed is fixed, agree
// in their low BITS bits: a hash table of requests would have them all in one place. The program has
// an ordered map in its stead. It takes some 90 seconds to find 100,000 such requests with 16 bits.
//
//     cc -O3 -o collide collide.c && ./collide 25000 14 > FILE && mystery model FILE
#include <stdint.h>
#include <stdio.h>
#include <stdlib.h>
#include <string.h>

static const uint64_t MULTIPLIER = 0x9e3779b97f4a7c15, SEED = 0x243f6a8885a308d3;

static uint64_t fold(uint64_t a, uint64_t b) {
    __uint128_t product = (__uint128_t)a * b;
    return (uint64_t)product ^ (uint64_t)(product >> 64);
}

static uint64_t eight_bytes(const char *text) {
    uint64_t number;
    memcpy(&number, text, 8);
    return number;
}

// The hash of a text of 16 bytes: of its bytes, and of the byte 255 after them.
static uint32_t hash(const char *text) {
    uint64_t state = fold(eight_bytes(text) ^ (SEED + 16), eight_bytes(text + 8) ^ MULTIPLIER);
    state = fold(state ^ 0xffffff, MULTIPLIER ^ 2);
    return (uint32_t)(state ^ (state >> 32));
}

int main(int count, char **words) {
    if (count != 3) {
        fputs("usage: collide COUNT BITS\n", stderr);
        return 2;
    }
    long wanted = atol(words[1]), found = 0;
    uint32_t mask = ((uint32_t)1 << atoi(words[2])) - 1;
    char text[17] = "aaaaaaaaaaaaxyzw";
    for (uint64_t number = 0; found < wanted; number++) {
        uint64_t rest = number;
        for (int at = 0; at < 12; at++, rest >>= 4) {
            text[at] = 'a' + (rest & 15);
        }
        if ((hash(text) & mask) == 0) {
            printf("{\"request\":\"%s\",\"machine\":\"m\",\"task\":\"t\",\"event\":\"e\",\"time\":1710720000000000}\n", text);
            found++;
        }
    }
    return 0;
}
