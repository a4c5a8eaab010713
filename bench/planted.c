// Four threads on tokens of this program's own, recorded by lwkt_record.h, with one of eleven bugs or none. The trace goes to standard
// output. The status is 4 if a token's word at the end has other references than the events leave, else 0.
//
//     ./planted BUG SEED     BUG is 0 for none, else the place of its name in `names`; the seed says where threads pause
//
// A token is one word: an exclusive bit, and a count of shared references above it. Threads pause where a bug may show. One that doesn't
// get a token ends its work, after many tries.
#include "lwkt_record.h"
#include <pthread.h>
#include <sched.h>
#include <stdatomic.h>
#include <time.h>

#define THREADS 4
#define SECTIONS 60
#define TRIES 2000
#define EXCLUSIVE UINT64_C(1)
#define SHARED UINT64_C(2)

enum bug {
    NONE,
    SHARED_TAKE,    // a shared take doesn't look at the exclusive bit
    EXCLUSIVE_TAKE, // an exclusive take doesn't look at the count
    NO_EXCHANGE,    // an exclusive take loads and stores, without an exchange
    LOST_GIVE,      // an exclusive give isn't done, now and then
    DOUBLE_GIVE,    // a shared give takes two off the count, where it has two
    FREED_INSIDE,   // a further reference isn't counted, so that its give frees the token
    UPGRADE,        // a shared holder becomes exclusive beside others
    STALE_READ,     // a value that was read in an earlier section is written
    LATE_WRITE,     // the last value is written after the token is given
    SHARED_WRITE,   // a value is written under a shared reference
    HALF_WRITTEN,   // one of two values isn't written, now and then
    BUGS
};

static const char *const names[BUGS] = {"none",        "shared_take", "exclusive_take", "no_exchange", "lost_give",    "double_give",
                                        "freed_inside", "upgrade",     "stale_read",     "late_write",  "shared_write", "half_written"};

struct token {
    _Atomic(uint64_t) word;
    unsigned number;
    uint64_t cells[2];
};

struct thread {
    unsigned number;
    uint64_t random;
};

static lwkt_record recorder;
static struct token accounts = {0, 0, {100, 100}}, counter = {0, 1, {0, 0}};
static enum bug bug;
static uint64_t seed;

static unsigned chance(struct thread *self, unsigned below)
{
    self->random = self->random * UINT64_C(6364136223846793005) + UINT64_C(1442695040888963407);
    return (unsigned)(self->random >> 33) % below;
}

// Lets others come between, now and then.
static void pause_here(struct thread *self)
{
    static const struct timespec moment = {0, 20000};
    unsigned kind = chance(self, 8);
    if (kind == 0)
        nanosleep(&moment, NULL);
    else if (kind < 3)
        sched_yield();
}

static bool try_exclusive(struct thread *self, struct token *token)
{
    uint64_t word = atomic_load(&token->word), held = bug == EXCLUSIVE_TAKE ? EXCLUSIVE : UINT64_MAX;
    if ((word & held) != 0)
        return false;
    if (bug == NO_EXCHANGE) {
        pause_here(self);
        atomic_store(&token->word, word | EXCLUSIVE);
    } else if (!atomic_compare_exchange_strong(&token->word, &word, word | EXCLUSIVE)) {
        return false;
    }
    lwkt_record_here(take, &recorder, self->number, token->number);
    return true;
}

static bool try_shared(struct thread *self, struct token *token)
{
    uint64_t word = atomic_load(&token->word);
    if (((word & EXCLUSIVE) != 0 && bug != SHARED_TAKE) || !atomic_compare_exchange_strong(&token->word, &word, word + SHARED))
        return false;
    lwkt_record_here(share, &recorder, self->number, token->number);
    return true;
}

static bool get(struct thread *self, struct token *token, bool (*try)(struct thread *, struct token *))
{
    unsigned tries;
    for (tries = 0; tries < TRIES; tries++) {
        if (try(self, token))
            return true;
        sched_yield();
    }
    return false;
}

static void give_exclusive(struct thread *self, struct token *token)
{
    lwkt_record_here(give, &recorder, self->number, token->number);
    if (bug != LOST_GIVE || chance(self, 10) != 0)
        atomic_fetch_and(&token->word, ~EXCLUSIVE);
}

static void give_shared(struct thread *self, struct token *token)
{
    uint64_t word = atomic_load(&token->word), count;
    lwkt_record_here(give, &recorder, self->number, token->number);
    do
        count = word / SHARED == 0 ? 0 : word / SHARED >= 2 && bug == DOUBLE_GIVE ? 2 * SHARED : SHARED;
    while (!atomic_compare_exchange_weak(&token->word, &word, word - count));
}

// A further reference within a section, given back there.
static void give_inside(struct thread *self, struct token *token)
{
    lwkt_record_here(again, &recorder, self->number, token->number);
    lwkt_record_here(give, &recorder, self->number, token->number);
    if (bug == FREED_INSIDE)
        atomic_fetch_and(&token->word, ~EXCLUSIVE);
}

static uint64_t read_cell(struct thread *self, struct token *token, unsigned cell)
{
    uint64_t value = token->cells[cell];
    lwkt_record_here(read, &recorder, self->number, token->number, cell, value);
    return value;
}

static void write_cell(struct thread *self, struct token *token, unsigned cell, uint64_t value)
{
    token->cells[cell] = value;
    lwkt_record_here(write, &recorder, self->number, token->number, cell, value);
}

// Reads both accounts. What the first has is the answer.
static bool look(struct thread *self, uint64_t *first)
{
    if (!get(self, &accounts, try_shared))
        return false;
    *first = read_cell(self, &accounts, 0);
    pause_here(self);
    read_cell(self, &accounts, 1);
    if (bug == SHARED_WRITE && chance(self, 10) == 0)
        write_cell(self, &accounts, 0, *first);
    give_shared(self, &accounts);
    return true;
}

// Takes what is held shared exclusively, in one step: if this thread alone holds it, or beside others where that is the bug.
static bool upgrade(struct thread *self)
{
    uint64_t word = atomic_load(&accounts.word);
    if (word != SHARED && !(bug == UPGRADE && (word & EXCLUSIVE) == 0))
        return false;
    lwkt_record_here(give, &recorder, self->number, accounts.number);
    if (!atomic_compare_exchange_strong(&accounts.word, &word, word - SHARED + EXCLUSIVE)) {
        lwkt_record_here(share, &recorder, self->number, accounts.number);
        return false;
    }
    lwkt_record_here(take, &recorder, self->number, accounts.number);
    return true;
}

// Counts a transfer in another token's cell.
static bool count_transfer(struct thread *self)
{
    if (!get(self, &counter, try_exclusive))
        return false;
    write_cell(self, &counter, 0, read_cell(self, &counter, 0) + 1);
    give_exclusive(self, &counter);
    return true;
}

// Takes the accounts to change them, now and then by way of a shared reference.
static bool take_accounts(struct thread *self)
{
    if (chance(self, 4) == 0) {
        if (!get(self, &accounts, try_shared))
            return false;
        pause_here(self);
        if (upgrade(self))
            return true;
        give_shared(self, &accounts);
    }
    return get(self, &accounts, try_exclusive);
}

// Moves one from account to account, or back.
static bool transfer(struct thread *self, uint64_t looked)
{
    uint64_t first, change = chance(self, 2) == 0 ? 1 : UINT64_MAX;
    bool goes_on;
    if (!take_accounts(self))
        return false;
    pause_here(self);
    first = bug == STALE_READ ? looked : read_cell(self, &accounts, 0);
    give_inside(self, &accounts);
    pause_here(self);
    write_cell(self, &accounts, 0, first + change);
    if (bug == LATE_WRITE)
        give_exclusive(self, &accounts);
    if (bug != HALF_WRITTEN || chance(self, 20) != 0)
        write_cell(self, &accounts, 1, read_cell(self, &accounts, 1) - change);
    goes_on = count_transfer(self);
    if (bug != LATE_WRITE)
        give_exclusive(self, &accounts);
    return goes_on;
}

static void *run(void *argument)
{
    struct thread self = {*(unsigned *)argument, seed * THREADS + *(unsigned *)argument};
    uint64_t looked = 0;
    unsigned section;
    bool goes_on = look(&self, &looked);
    for (section = 0; section < SECTIONS && goes_on; section++) {
        pause_here(&self);
        goes_on = chance(&self, 2) == 0 ? look(&self, &looked) : transfer(&self, looked);
    }
    return NULL;
}

static void want(int error, const char *what)
{
    if (error == 0)
        return;
    fprintf(stderr, "planted: %s: %s\n", what, lwkt_record_words(error));
    exit(1);
}

static void run_threads(void)
{
    static unsigned numbers[THREADS];
    pthread_t threads[THREADS];
    unsigned each;
    for (each = 0; each < THREADS; each++) {
        numbers[each] = each;
        if (pthread_create(&threads[each], NULL, run, &numbers[each]) != 0)
            exit(1);
    }
    for (each = 0; each < THREADS; each++)
        pthread_join(threads[each], NULL);
}

// Tells what a token has at the end. Whether its word has the references that its events leave.
static bool ends_well(struct token *token, unsigned cells)
{
    uint64_t word = atomic_load(&token->word);
    int error = lwkt_record_end_references(&recorder, token->number, word / SHARED + word % SHARED);
    want(lwkt_record_end_cells(&recorder, token->number, token->cells, cells), "the cells");
    want(error == LWKT_RECORD_OTHERWISE ? 0 : error, "the references");
    return error == 0;
}

int main(int count, char **arguments)
{
    bool accounts_end, counter_ends;
    if (count != 3) {
        for (bug = NONE; bug < BUGS; bug++)
            puts(names[bug]);
        return 0;
    }
    bug = (enum bug)strtoul(arguments[1], NULL, 10);
    seed = strtoull(arguments[2], NULL, 10);
    want(lwkt_record_open(&recorder, THREADS, 2, 0, SECTIONS * 40), "open");
    want(lwkt_record_token(&recorder, accounts.number, LWKT_RECORD_SUM, 200, 0, accounts.cells, 2), "accounts");
    want(lwkt_record_token(&recorder, counter.number, LWKT_RECORD_TALLY, 0, 0, counter.cells, 1), "counter");
    run_threads();
    accounts_end = ends_well(&accounts, 2);
    counter_ends = ends_well(&counter, 1);
    want(lwkt_record_lost(&recorder), "a lost event");
    want(lwkt_record_to_file(&recorder, stdout), "the trace");
    lwkt_record_close(&recorder);
    return accounts_end && counter_ends ? 0 : 4;
}
