// lwkt_sanitized: what a program under ThreadSanitizer has in place of the calls of lwkt.h on a bank, which includes it there. The
// sanitizer doesn't see the library's own steps; these functions tell it what lwkt.h promises: what was written before a reference is
// given back is seen after the token is next taken. Each makes the call of its name, with the same arguments and the same answer.
#ifndef LWKT_SANITIZED_H
#define LWKT_SANITIZED_H

#ifdef __cplusplus
extern "C" {
#endif

void __tsan_acquire(void *address);
void __tsan_release(void *address);

// An address for each token of a bank, the same in all files of a program. Two tokens may have the same one: the sanitizer then takes
// more for ordered than is, and accuses less.
__attribute__((weak)) char lwkt_sanitized_tokens[65536];

static inline void *lwkt_sanitized_token(lwkt_bank bank, uint32_t token) {
    return &lwkt_sanitized_tokens[(((uintptr_t)bank.place >> 4) * 64 + token) % sizeof lwkt_sanitized_tokens];
}

static inline uint32_t lwkt_sanitized_taken(uint32_t status, lwkt_bank bank, uint32_t token) {
    if (status == 0) __tsan_acquire(lwkt_sanitized_token(bank, token));
    return status;
}

static inline uint32_t lwkt_sanitized_take(lwkt_bank bank, uint32_t seat, uint32_t token) {
    return lwkt_sanitized_taken(lwkt_take(bank, seat, token), bank, token);
}

static inline uint32_t lwkt_sanitized_share(lwkt_bank bank, uint32_t seat, uint32_t token) {
    return lwkt_sanitized_taken(lwkt_share(bank, seat, token), bank, token);
}

static inline uint32_t lwkt_sanitized_take_load(lwkt_bank bank, uint32_t seat, uint32_t token, uint32_t cell, uint64_t *value) {
    return lwkt_sanitized_taken(lwkt_take_load(bank, seat, token, cell, value), bank, token);
}

// Told before the call: behind it another thread may have taken the token.
static inline uint32_t lwkt_sanitized_give(lwkt_bank bank, uint32_t seat, uint32_t token) {
    __tsan_release(lwkt_sanitized_token(bank, token));
    return lwkt_give(bank, seat, token);
}

static inline uint32_t lwkt_sanitized_store_give(lwkt_bank bank, uint32_t seat, uint32_t token, uint32_t cell, uint64_t value) {
    __tsan_release(lwkt_sanitized_token(bank, token));
    return lwkt_store_give(bank, seat, token, cell, value);
}

static inline uint32_t lwkt_sanitized_resume(lwkt_bank bank, uint32_t seat, const lwkt_reference *list, size_t count, size_t *missed) {
    uint32_t status = lwkt_resume(bank, seat, list, count, missed);
    for (size_t i = 0; status == 0 && i < count; i += 1) __tsan_acquire(lwkt_sanitized_token(bank, list[i].token));
    return status;
}

// Which tokens the seat holds isn't known here: it is told of all that a bank can have.
static inline uint32_t lwkt_sanitized_block(lwkt_bank bank, uint32_t seat, uint32_t *restored) {
    for (uint32_t token = 0; token < 64; token += 1) __tsan_release(lwkt_sanitized_token(bank, token));
    return lwkt_block(bank, seat, restored);
}

#ifdef __cplusplus
}
#endif

#define lwkt_take lwkt_sanitized_take
#define lwkt_share lwkt_sanitized_share
#define lwkt_give lwkt_sanitized_give
#define lwkt_take_load lwkt_sanitized_take_load
#define lwkt_store_give lwkt_sanitized_store_give
#define lwkt_resume lwkt_sanitized_resume
#define lwkt_block lwkt_sanitized_block

#endif
