// Four threads move amounts between three accounts, whose sum stays, and count how often; others read them meanwhile. What they
// do with their tokens is recorded, and written to standard output as a trace for `lwkt_check`.
//
//     ./transfers [SECTIONS [ROOM]]     so many sections of each thread; 300 without. With ROOM the last events are kept, so many
//                                       of each thread less 16
//
// Built as it stands, its traces are lawful. Each of these plants one fault:
//
//     -DBUG_SHARED_TAKE     a shared take doesn't look at the exclusive bit (token.h)
//     -DBUG_STALE_WRITE     a transfer writes what it makes of a value that it read before it took the token
//     -DBUG_LATE_STAMP      the tokens are right, but a give is recorded after it is done (token.h)
//
// That each is found in every run: before the threads run freely, threads 0 and 1 meet (`meet_first`, `meet_second`). They wait
// for each other at the places where the fault shows, without the token, or where the other one only tries. These waits are
// in all builds, and in the right one nothing comes of them. So the events up to the fault are the same in each run.
#include "token.h"
#include <pthread.h>
#include <stdlib.h>

#define THREADS 4

static struct token accounts = {0, 0, {100, 100, 100, 0}};
static struct token transfers = {0, 1, {0, 0, 0, 0}};
static unsigned sections = 300;

#ifdef BUG_LATE_STAMP
// Thread 1 takes the token in between, the first time.
static void token_was_left(void)
{
    await(3);
}
#endif

// What an account has, read under a shared reference that is given up again.
static uint64_t look(struct thread *self, unsigned account)
{
    uint64_t value;
    token_get_shared(self, &accounts);
    value = cell_read(self, &accounts, account);
    token_release(self, &accounts);
    return value;
}

static void count_transfer(struct thread *self)
{
    token_get(self, &transfers);
    cell_write(self, &transfers, 0, cell_read(self, &transfers, 0) + 1);
    token_release(self, &transfers);
}

static void nothing(void)
{
}

// Moves an amount, if the first account has it. It looks before it takes the token, and has to look again then. What
// happens in between the caller says.
static void transfer(struct thread *self, unsigned from, unsigned to, uint64_t amount, void (*in_between)(void))
{
    uint64_t has = look(self, from);
    in_between();
    if (has < amount)
        return;
    token_get(self, &accounts);
#ifndef BUG_STALE_WRITE
    has = cell_read(self, &accounts, from);
#endif
    if (has >= amount) {
        cell_write(self, &accounts, from, has - amount);
        cell_write(self, &accounts, to, cell_read(self, &accounts, to) + amount);
        count_transfer(self);
    }
    token_release(self, &accounts);
}

// Reads all accounts; the second reference is a further one.
static void audit(struct thread *self)
{
    unsigned account;
    token_get_shared(self, &accounts);
    token_get_shared(self, &accounts);
    for (account = 0; account < 3; account++)
        cell_read(self, &accounts, account);
    token_release(self, &accounts);
    token_release(self, &accounts);
}

// Thread 0 writes; thread 1 tries to read meanwhile, and then takes the token as soon as it is left.
static void meet_first(struct thread *self)
{
    if (self->number == 0) {
        token_get(self, &accounts);
        cell_write(self, &accounts, 0, cell_read(self, &accounts, 0) - 1);
        reach(1);
        await(2);
        cell_write(self, &accounts, 1, cell_read(self, &accounts, 1) + 1);
        token_release(self, &accounts);
        await(3);
    } else {
        await(1);
        if (token_try_shared(self, &accounts)) {
            cell_read(self, &accounts, 0);
            token_release(self, &accounts);
        }
        reach(2);
        while (!token_try(self, &accounts))
            sched_yield();
        reach(3);
        token_release(self, &accounts);
    }
}

static void let_the_other_transfer(void)
{
    reach(4);
    await(5);
}

// Thread 1 transfers from an account, between the moment when thread 0 looks at it and that when thread 0 transfers from it.
static void meet_second(struct thread *self)
{
    if (self->number == 0) {
        transfer(self, 0, 1, 10, let_the_other_transfer);
        reach(6);
    } else {
        await(4);
        transfer(self, 0, 2, 5, nothing);
        reach(5);
    }
}

static void *run(void *argument)
{
    struct thread self = {*(unsigned *)argument, 0, {{0, false}, {0, false}}};
    unsigned section;
    if (self.number < 2) {
        meet_first(&self);
        meet_second(&self);
    }
    await(6);
    for (section = 0; section < sections; section++) {
        if ((section + self.number) % 3 == 0)
            audit(&self);
        else
            transfer(&self, (section + self.number) % 3, (section + 1) % 3, 1 + section % 7, nothing);
    }
    return NULL;
}

// A failed call of the recorder or of the system ends the program.
static void want(int error, const char *what)
{
    if (error == 0)
        return;
    fprintf(stderr, "transfers: %s: %s\n", what, lwkt_record_words(error));
    exit(1);
}

static void run_threads(void)
{
    static unsigned numbers[THREADS];
    pthread_t threads[THREADS];
    unsigned each;
    for (each = 0; each < THREADS; each++) {
        numbers[each] = each;
        if (pthread_create(&threads[each], NULL, run, &numbers[each]) != 0) {
            fprintf(stderr, "transfers: there is no thread %u\n", each);
            exit(1);
        }
    }
    for (each = 0; each < THREADS; each++)
        pthread_join(threads[each], NULL);
}

int main(int count, char **arguments)
{
    FILE *where = getenv("WHERE") == NULL ? NULL : fopen(getenv("WHERE"), "w");
    if (count > 1)
        sections = (unsigned)strtoul(arguments[1], NULL, 10);
    want(lwkt_record_open(&recorder, THREADS, TOKENS, 0,
                          count > 2 ? (size_t)strtoul(arguments[2], NULL, 10) : (size_t)sections * 40 + 100),
         "open");
    if (where != NULL)
        want(lwkt_record_where_to_file(&recorder, where), "where");
    if (count > 2)
        want(lwkt_record_keep_last(&recorder), "the last events");
    want(lwkt_record_token(&recorder, accounts.number, LWKT_RECORD_SUM, 300, 0, accounts.cells, 3), "accounts");
    want(lwkt_record_token(&recorder, transfers.number, LWKT_RECORD_TALLY, 0, 0, transfers.cells, 1), "transfers");
    run_threads();
    want(lwkt_record_end_cells(&recorder, accounts.number, accounts.cells, 3), "accounts");
    want(lwkt_record_end_cells(&recorder, transfers.number, transfers.cells, 1), "transfers");
    want(lwkt_record_lost(&recorder), "a lost event");
    want(lwkt_record_to_file(&recorder, stdout), "the trace");
    lwkt_record_close(&recorder);
    return where == NULL || fclose(where) == 0 ? 0 : 1;
}
