// Tries the helpers by themselves, natively, beside what the processor and the C library have: helpers_test TIMES SEED
#include <stdint.h>
#include <stdio.h>
#include <stdlib.h>
#include <string.h>

// The helpers under names of their own.
#define __ashlti3 own_shifted_left
#define __lshrti3 own_shifted_right
#define __ashrti3 own_shifted_signed
#define __multi3 own_product
#define memcpy own_memcpy
#define memmove own_memmove
#define memset own_memset
#define memcmp own_memcmp
#define bcmp own_bcmp
#include "helpers.c"
#undef memcpy
#undef memmove
#undef memset
#undef memcmp
#undef bcmp

static uint64_t state;

static uint64_t draw(void) {
    state ^= state << 13;
    state ^= state >> 7;
    state ^= state << 17;
    return state;
}

// Numbers of all lengths, and those at the ends.
static Pair drawn_pair(void) {
    Pair it = (Pair)draw() << 64 | draw();
    switch (draw() % 4) {
        case 0: return it >> draw() % 128;
        case 1: return ~(it >> draw() % 128);
        case 2: return (Pair)1 << draw() % 128;
        default: return it;
    }
}

static void check(int holds, const char *what) {
    if (!holds) {
        fprintf(stderr, "helpers_test: %s\n", what);
        exit(1);
    }
}

static int sign(int it) {
    return (it > 0) - (it < 0);
}

int main(int argc, char **argv) {
    if (argc != 3) {
        fprintf(stderr, "usage: helpers_test TIMES SEED\n");
        return 2;
    }
    uint64_t times = strtoull(argv[1], 0, 10);
    state = strtoull(argv[2], 0, 10) * 2654435769u + 1;
    for (uint64_t i = 0; i < times; i++) {
        Pair a = drawn_pair(), b = drawn_pair();
        int by = i % 128;
        check(own_shifted_left(a, by) == a << by, "a shift to the left");
        check(own_shifted_right(a, by) == a >> by, "a shift to the right");
        check(own_shifted_signed(a, by) == (Signed)a >> by, "a shift to the right of a number with a sign");
        check((Pair)own_product(a, b) == a * b, "a product");
        unsigned char one[64], other[64], wanted[64];
        for (int j = 0; j < 64; j++) {
            one[j] = draw() % 3;
            other[j] = one[j];
        }
        size_t n = draw() % 65, at = draw() % 64;
        other[at] = draw() % 3;
        check(sign(own_memcmp(one, other, n)) == sign(memcmp(one, other, n)), "a comparison");
        check((own_bcmp(one, other, n) == 0) == (memcmp(one, other, n) == 0), "whether bytes are the same");
        size_t from = draw() % 32, to = draw() % 32, some = draw() % 33;
        memcpy(wanted, one, 64);
        memmove(wanted + to, wanted + from, some);
        check(own_memmove(one + to, one + from, some) == one + to && memcmp(one, wanted, 64) == 0, "a move");
        memset(wanted + to, (int)i, some);
        check(own_memset(one + to, (int)i, some) == one + to && memcmp(one, wanted, 64) == 0, "a filling");
        check(own_memcpy(other, one, some) == other && memcmp(other, one, some) == 0, "a copy");
    }
    printf("ok: the helpers, %llu times\n", (unsigned long long)times);
    return 0;
}
