// The functions of 128-bit numbers that compiled code calls by name where no C library is linked. They are made of 64-bit parts:
// a product or shift of 128 bits in them would be a call of themselves.
typedef unsigned long long u64;
typedef long long i64;
typedef unsigned __int128 u128;

typedef union {
    u128 whole;
    struct {
        u64 low, high;
    } part;
} Wide;

// The whole product of two 64-bit numbers, by halves of 32 bits.
static Wide product_of(u64 a, u64 b) {
    u64 a_low = a & 0xffffffff, a_high = a >> 32;
    u64 b_low = b & 0xffffffff, b_high = b >> 32;
    u64 low = a_low * b_low;
    u64 middle = a_high * b_low + (low >> 32);
    u64 other = a_low * b_high + (middle & 0xffffffff);
    Wide made;
    made.part.low = other << 32 | (low & 0xffffffff);
    made.part.high = a_high * b_high + (middle >> 32) + (other >> 32);
    return made;
}

// The low 128 bits of the product, whatever the signs.
u128 __multi3(u128 a, u128 b) {
    Wide x = {a}, y = {b};
    Wide made = product_of(x.part.low, y.part.low);
    made.part.high += x.part.low * y.part.high + x.part.high * y.part.low;
    return made.whole;
}

// The shifts take a count from 0 to 127. At a count of 0 nothing comes over from the other part: 64 bits can't be shifted by 64.

u128 __ashlti3(u128 a, int count) {
    Wide from = {a}, made;
    int few = count & 63;
    u64 over = few ? from.part.low >> (64 - few) : 0;
    made.part.low = count & 64 ? 0 : from.part.low << few;
    made.part.high = count & 64 ? from.part.low << few : from.part.high << few | over;
    return made.whole;
}

u128 __lshrti3(u128 a, int count) {
    Wide from = {a}, made;
    int few = count & 63;
    u64 over = few ? from.part.high << (64 - few) : 0;
    made.part.high = count & 64 ? 0 : from.part.high >> few;
    made.part.low = count & 64 ? from.part.high >> few : from.part.low >> few | over;
    return made.whole;
}

u128 __ashrti3(u128 a, int count) {
    Wide from = {a}, made;
    int few = count & 63;
    i64 high = (i64)from.part.high;
    u64 over = few ? from.part.high << (64 - few) : 0;
    made.part.high = count & 64 ? (u64)(high >> 63) : (u64)(high >> few);
    made.part.low = count & 64 ? (u64)(high >> few) : from.part.low >> few | over;
    return made.whole;
}
