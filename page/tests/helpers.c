// The helpers of 128-bit numbers beside those that the C compiler makes itself.
#define __multi3 own_product
#define __ashlti3 own_left
#define __lshrti3 own_right
#define __ashrti3 own_signed_right
#include "../helpers.c"
#include <stdio.h>

static u64 seed = 1;

static u64 next(void) {
    seed ^= seed << 13;
    seed ^= seed >> 7;
    seed ^= seed << 17;
    return seed;
}

// A number whose bits are mostly alike now and then, as carries go far in such.
static u128 number(void) {
    u128 made = (u128)next() << 64 | next();
    switch (next() % 6) {
        case 0: return made >> next() % 128;
        case 1: return ~(made >> next() % 128);
        case 2: return (u128)1 << next() % 128;
        case 3: return ((u128)1 << next() % 128) - 1;
        default: return made;
    }
}

int main(void) {
    long passed = 0, failed = 0;
    for (long i = 0; i < 200000; i += 1) {
        u128 a = number(), b = number();
        int count = i % 128;
        int good = own_product(a, b) == a * b && own_left(a, count) == a << count && own_right(a, count) == a >> count &&
                   own_signed_right(a, count) == (u128)((__int128)a >> count);
        passed += good;
        failed += !good;
    }
    // One test of four functions.
    printf("%d passed, %d failed\n", failed == 0, failed != 0);
    return failed != 0 || passed != 200000;
}
