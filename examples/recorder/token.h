// Tokens as DragonFly's lwkt_token.c does them, on threads of a program, with the calls that record them. A token is one word:
// an exclusive bit, an exclusive-request bit, and a count of shared references above them. It is taken by compare-exchange, and
// a thread that can't have it spins. What a token guards lies beside it.
#ifndef TOKEN_H
#define TOKEN_H

#include "lwkt_record.h"
#include <sched.h>
#include <stdatomic.h>
#include <stdbool.h>
#include <stdint.h>

#define TOKENS 2
#define TOKEN_EXCLUSIVE UINT64_C(1)
#define TOKEN_REQUEST UINT64_C(2)
#define TOKEN_SHARED UINT64_C(4)

// A token, its number in the trace, and the cells that it guards.
struct token {
    _Atomic(uint64_t) count;
    unsigned number;
    uint64_t cells[4];
};

// What a thread holds of a token.
struct holding {
    unsigned references;
    bool is_exclusive;
};

// A thread, by its number in the trace: there it is a processor.
struct thread {
    unsigned number;
    unsigned references;
    struct holding of[TOKENS];
};

static lwkt_record recorder;

// A further reference to a token that the thread has.
static bool token_again(struct thread *self, struct token *token)
{
    lwkt_record_here(again, &recorder, self->number, token->number);
    self->of[token->number].references += 1;
    self->references += 1;
    return true;
}

static void token_begin(struct thread *self, struct token *token, bool is_exclusive)
{
    self->of[token->number].references = 1;
    self->of[token->number].is_exclusive = is_exclusive;
    self->references += 1;
}

// An exclusive reference, if it can be had now. A shared one doesn't become exclusive.
static bool token_try(struct thread *self, struct token *token)
{
    uint64_t count = atomic_load_explicit(&token->count, memory_order_relaxed);
    if (self->of[token->number].references > 0)
        return self->of[token->number].is_exclusive && token_again(self, token);
    while ((count & ~TOKEN_REQUEST) == 0) {
        if (atomic_compare_exchange_weak_explicit(&token->count, &count, TOKEN_EXCLUSIVE, memory_order_acquire,
                                                  memory_order_relaxed)) {
            lwkt_record_here(take, &recorder, self->number, token->number);
            token_begin(self, token, true);
            return true;
        }
    }
    return false;
}

// Which bits refuse a shared reference. A thread that holds another token isn't refused by a request: who requests may wait
// for that one.
static uint64_t token_refusing(const struct thread *self)
{
#ifdef BUG_SHARED_TAKE
    return self->references == 0 ? TOKEN_REQUEST : 0;
#else
    return self->references == 0 ? TOKEN_EXCLUSIVE | TOKEN_REQUEST : TOKEN_EXCLUSIVE;
#endif
}

// A shared reference, if it can be had now.
static bool token_try_shared(struct thread *self, struct token *token)
{
    uint64_t count = atomic_load_explicit(&token->count, memory_order_relaxed);
    if (self->of[token->number].references > 0)
        return token_again(self, token);
    while ((count & token_refusing(self)) == 0) {
        if (atomic_compare_exchange_weak_explicit(&token->count, &count, count + TOKEN_SHARED, memory_order_acquire,
                                                  memory_order_relaxed)) {
            lwkt_record_here(share, &recorder, self->number, token->number);
            token_begin(self, token, false);
            return true;
        }
    }
    return false;
}

// An exclusive reference, however long it takes. A thread that has to wait requests it.
static inline void token_get(struct thread *self, struct token *token)
{
    while (!token_try(self, token)) {
        if ((atomic_fetch_or_explicit(&token->count, TOKEN_REQUEST, memory_order_relaxed) & TOKEN_REQUEST) == 0)
            lwkt_record_here(mark, &recorder, self->number, token->number);
        sched_yield();
    }
}

// A shared reference, however long it takes.
static void token_get_shared(struct thread *self, struct token *token)
{
    while (!token_try_shared(self, token))
        sched_yield();
}

// Gives up what the word says of the thread.
static void token_leave(struct token *token, bool is_exclusive)
{
    if (is_exclusive)
        atomic_fetch_and_explicit(&token->count, ~TOKEN_EXCLUSIVE, memory_order_release);
    else
        atomic_fetch_sub_explicit(&token->count, TOKEN_SHARED, memory_order_release);
}

#ifdef BUG_LATE_STAMP
// Called where the token is free and its give isn't recorded yet.
static void token_was_left(void);
#endif

// Gives a reference back.
static void token_release(struct thread *self, struct token *token)
{
    struct holding *own = &self->of[token->number];
    bool is_last = own->references == 1;
    own->references -= 1;
    self->references -= 1;
#ifdef BUG_LATE_STAMP
    if (is_last) {
        token_leave(token, own->is_exclusive);
        token_was_left();
    }
    lwkt_record_here(give, &recorder, self->number, token->number);
#else
    lwkt_record_here(give, &recorder, self->number, token->number);
    if (is_last)
        token_leave(token, own->is_exclusive);
#endif
}

// A cell of a token that the thread holds.
static uint64_t cell_read(struct thread *self, struct token *token, unsigned cell)
{
    uint64_t value = token->cells[cell];
    lwkt_record_here(read, &recorder, self->number, token->number, cell, value);
    return value;
}

static void cell_write(struct thread *self, struct token *token, unsigned cell, uint64_t value)
{
    token->cells[cell] = value;
    lwkt_record_here(write, &recorder, self->number, token->number, cell, value);
}

// How far the two threads have come that meet. It orders nothing but their steps: what the cells have rests on the tokens alone.
static _Atomic(unsigned) step;

static void reach(unsigned place)
{
    atomic_store_explicit(&step, place, memory_order_relaxed);
}

static void await(unsigned place)
{
    while (atomic_load_explicit(&step, memory_order_relaxed) < place)
        sched_yield();
}

#endif
