// Thirty-two threads move amounts between three accounts under the eight numbers of a trace: before each section a thread is lent
// a number, and leaves it after. The main thread drains what they record while they run, in lines for `lwkt_check`, so that
// each number's buffer has 40 events only. A thread that has no room for a section there waits for the next drain.
//
//     ./many [SECTIONS]     so many sections of each thread; 50 without
//
// Built as it stands, its traces are lawful. With -DBUG_SHARED_TAKE a shared take doesn't look at the exclusive bit (token.h).
// That shows in every run: two threads meet before the others begin. One writes, the other tries to read meanwhile.
#include "token.h"
#include <pthread.h>
#include <stdlib.h>

#define THREADS 32
#define ROOM 40
#define SECTION 10 // the most events of a section: those of a transfer

static struct token accounts = {0, 0, {100, 100, 100, 0}};
static struct token transfers = {0, 1, {0, 0, 0, 0}};
static unsigned sections = 50;
static _Atomic(unsigned) at_work = THREADS;

// A failed call of the recorder or of the system ends the program.
static void want(int error, const char *what)
{
    if (error == 0)
        return;
    fprintf(stderr, "many: %s: %s\n", what, lwkt_record_words(error));
    exit(1);
}

// Borrows a number that has room for a section, however long it takes.
static void borrow(struct thread *self)
{
    int error = lwkt_record_enter(&recorder, &self->number);
    while (error == LWKT_RECORD_ALL_LENT) {
        sched_yield();
        error = lwkt_record_enter(&recorder, &self->number);
    }
    want(error, "a number");
    while (lwkt_record_room(&recorder, self->number) < SECTION)
        sched_yield();
}

static void give_back(struct thread *self)
{
    want(lwkt_record_leave(&recorder, self->number), "a number that is given back");
}

// An exclusive reference, without a mark: how many of these a thread would record isn't known.
static void get(struct thread *self, struct token *token)
{
    while (!token_try(self, token))
        sched_yield();
}

static void transfer(struct thread *self, unsigned from, unsigned to)
{
    uint64_t has;
    get(self, &accounts);
    has = cell_read(self, &accounts, from);
    if (has > 0) {
        cell_write(self, &accounts, from, has - 1);
        cell_write(self, &accounts, to, cell_read(self, &accounts, to) + 1);
        get(self, &transfers);
        cell_write(self, &transfers, 0, cell_read(self, &transfers, 0) + 1);
        token_release(self, &transfers);
    }
    token_release(self, &accounts);
}

static void audit(struct thread *self)
{
    unsigned account;
    token_get_shared(self, &accounts);
    for (account = 0; account < 3; account++)
        cell_read(self, &accounts, account);
    token_release(self, &accounts);
}

// The first two threads are lent the numbers 0 and 1, one after the other.
static void meet(unsigned place)
{
    struct thread self = {0, 0, {{0, false}, {0, false}}};
    if (place == 0) {
        borrow(&self);
        get(&self, &accounts);
        cell_write(&self, &accounts, 0, cell_read(&self, &accounts, 0) - 1);
        reach(1);
        await(2);
        cell_write(&self, &accounts, 1, cell_read(&self, &accounts, 1) + 1);
        token_release(&self, &accounts);
    } else {
        await(1);
        borrow(&self);
        if (token_try_shared(&self, &accounts)) {
            cell_read(&self, &accounts, 0);
            token_release(&self, &accounts);
        }
        reach(2);
    }
    give_back(&self);
}

static void *run(void *argument)
{
    unsigned place = *(unsigned *)argument, section;
    if (place < 2)
        meet(place);
    await(2);
    for (section = 0; section < sections; section++) {
        struct thread self = {0, 0, {{0, false}, {0, false}}};
        borrow(&self);
        if ((section + place) % 3 == 0)
            audit(&self);
        else
            transfer(&self, (section + place) % 3, section % 3);
        give_back(&self);
    }
    atomic_fetch_sub_explicit(&at_work, 1, memory_order_relaxed);
    return NULL;
}

static void run_threads(void)
{
    static unsigned places[THREADS];
    pthread_t threads[THREADS];
    unsigned each;
    int error;
    for (each = 0; each < THREADS; each++) {
        places[each] = each;
        if (pthread_create(&threads[each], NULL, run, &places[each]) != 0) {
            fprintf(stderr, "many: there is no thread %u\n", each);
            exit(1);
        }
    }
    while (atomic_load_explicit(&at_work, memory_order_relaxed) > 0) {
        error = lwkt_record_drain_to_file(&recorder, stdout);
        want(error == LWKT_RECORD_CUT ? 0 : error, "a drain");
        sched_yield();
    }
    for (each = 0; each < THREADS; each++)
        pthread_join(threads[each], NULL);
}

int main(int count, char **arguments)
{
    if (count > 1)
        sections = (unsigned)strtoul(arguments[1], NULL, 10);
    want(lwkt_record_open(&recorder, LWKT_RECORD_PROCESSORS, TOKENS, 0, ROOM), "open");
    want(lwkt_record_token(&recorder, accounts.number, LWKT_RECORD_SUM, 300, 0, accounts.cells, 3), "accounts");
    want(lwkt_record_token(&recorder, transfers.number, LWKT_RECORD_TALLY, 0, 0, transfers.cells, 1), "transfers");
    run_threads();
    want(lwkt_record_end_cells(&recorder, accounts.number, accounts.cells, 3), "accounts");
    want(lwkt_record_end_cells(&recorder, transfers.number, transfers.cells, 1), "transfers");
    want(lwkt_record_drain_to_file(&recorder, stdout), "the last drain");
    lwkt_record_close(&recorder);
    return 0;
}
