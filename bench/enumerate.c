// Makes the runs of a script along every order of at most so many turns, and behind each of the longest so many rounds, in which all
// comes to rest. It writes the report of each run whose threads have all ended, and of each that has come to rest, without its verdict,
// behind a line `outcome`. It tells no two states apart: bench/explored compares with it what lwkt_explore finds.
//
//     enumerate TURNS ROUNDS CPUS < script.json
//
// The runs are those of lwkt_show_turns (include/lwkt.h), whose text ends with the report. Status 1 where the words aren't three
// numbers, the last of them the processors of the script, the script is refused or a run isn't lawful; 3 where memory is refused or a
// stream fails.
#include <stdbool.h>
#include <stdint.h>
#include <stdio.h>
#include <stdlib.h>
#include <string.h>

#include "lwkt.h"

// Bytes, and for how many there is room.
struct bytes {
    uint8_t *at;
    size_t length, room;
};

// The arguments for the run along an order, before the order.
static const char before_order[] = "turns --order ";

// A script, and the run that was made last. The digits of its order stand in the words.
struct search {
    struct bytes script, words, text;
    size_t turns, rounds, cpus;
};

static void fail(int status, const char *why) {
    fprintf(stderr, "enumerate: %s\n", why);
    exit(status);
}

static void make_room(struct bytes *bytes, size_t room) {
    uint8_t *at = realloc(bytes->at, room);
    if (at == NULL)
        fail(3, "no memory");
    bytes->at = at;
    bytes->room = room;
}

static struct bytes of_room(size_t room) {
    struct bytes bytes = {NULL, 0, 0};
    make_room(&bytes, room);
    return bytes;
}

static void add(struct bytes *bytes, const void *more, size_t length) {
    if (length > bytes->room - bytes->length)
        make_room(bytes, 2 * (bytes->length + length));
    memcpy(bytes->at + bytes->length, more, length);
    bytes->length += length;
}

static struct bytes read_script(void) {
    struct bytes script = of_room(65536);
    uint8_t part[4096];
    size_t count;
    while ((count = fread(part, 1, sizeof part, stdin)) > 0)
        add(&script, part, count);
    if (ferror(stdin))
        fail(3, "the script can't be read");
    return script;
}

static size_t number_of(const char *word) {
    char *end;
    unsigned long number = strtoul(word, &end, 10);
    if (*word < '0' || *word > '9' || *end != '\0' || number > 1000)
        fail(1, "the words are three numbers to 1000: TURNS ROUNDS CPUS");
    return number;
}

// The digits of the order.
static uint8_t *digits_of(const struct search *search) {
    return search->words.at + strlen(before_order);
}

// Makes the run along the first digits of the order, into the text; says whether all threads have ended. All that isn't a lawful run
// of the script is the end.
static bool run(struct search *search, size_t turns) {
    struct bytes *text = &search->text, words = search->words;
    const struct bytes *script = &search->script;
    lwkt_answer answer;
    uint32_t status;
    uint8_t first = *digits_of(search);
    words.length = strlen(before_order) + (turns == 0 ? 1 : turns);
    if (turns == 0)
        *digits_of(search) = '-';
    status = lwkt_show_turns(script->at, script->length, words.at, words.length, text->at, text->room, &answer);
    if (answer.length > text->room) {
        make_room(text, answer.length);
        status = lwkt_show_turns(script->at, script->length, words.at, words.length, text->at, text->room, &answer);
    }
    *digits_of(search) = first;
    text->length = answer.length < text->room ? answer.length : text->room;
    if ((status != 0 && status != 2) || answer.length > text->room) {
        fwrite(text->at, 1, text->length, stderr);
        fail(status == 3 ? 3 : 1, "there is no lawful run of this script along each order");
    }
    return status == 0;
}

static bool begins(const uint8_t *line, size_t length, const char *word) {
    return length >= strlen(word) && memcmp(line, word, strlen(word)) == 0;
}

// Whether a line can be one of the report, before its verdict. A line above it, why a thread faulted, begins as that of a thread:
// `thread 0.1 ended faulted`.
static bool is_of_report(const uint8_t *line, size_t length) {
    const size_t word = strlen("thread ");
    const uint8_t *blank;
    if (begins(line, length, "token ") || begins(line, length, "tally ") || begins(line, length, "record ") ||
        begins(line, length, "message "))
        return true;
    if (!begins(line, length, "thread "))
        return false;
    blank = memchr(line + word, ' ', length - word);
    return blank == NULL || !begins(blank, length - (size_t)(blank - line), " ended faulted ");
}

// Where the line begins that ends at a place.
static size_t line_begin(const struct bytes *text, size_t end) {
    size_t begin = end - 1;
    while (begin > 0 && text->at[begin - 1] != '\n')
        begin--;
    return begin;
}

// The report without its verdict, which the text ends with: the lines of tokens, messages and threads above the last line.
static struct bytes report_of(const struct bytes *text) {
    struct bytes report = {text->at, 0, 0};
    size_t end, begin, last;
    if (text->length == 0)
        fail(1, "a run was shown without its report");
    last = line_begin(text, text->length);
    if (text->length - last != strlen("lawful\n") || !begins(text->at + last, text->length - last, "lawful\n"))
        fail(1, "a run was shown without its verdict");
    for (end = last; end > 0; end = begin) {
        begin = line_begin(text, end);
        if (!is_of_report(text->at + begin, end - begin))
            break;
    }
    report.at += end;
    report.length = last - end;
    return report;
}

// Writes the report of the run that was made last.
static void write_last(const struct search *search) {
    struct bytes report = report_of(&search->text);
    fputs("outcome\n", stdout);
    fwrite(report.at, 1, report.length, stdout);
}

// Goes on by rounds until all has come to rest. If every thread ends in them, notes may be under way then, and the reports between are
// written too, up to the first that is the last one.
static void come_to_rest(struct search *search) {
    const size_t all = search->turns + search->rounds * search->cpus;
    bool is_last = !run(search, all);
    struct bytes report = report_of(&search->text), last = of_room(report.length + 1);
    add(&last, report.at, report.length);
    write_last(search);
    for (size_t turns = search->turns + 1; turns < all && !is_last; turns++)
        if (run(search, turns)) {
            write_last(search);
            report = report_of(&search->text);
            is_last = report.length == last.length && memcmp(report.at, last.at, last.length) == 0;
        }
    free(last.at);
}

// Makes the runs along the orders that begin with the first digits.
static void try_orders(struct search *search, size_t turns) {
    if (run(search, turns))
        write_last(search);
    if (turns == search->turns) {
        come_to_rest(search);
        return;
    }
    for (size_t cpu = 0; cpu < search->cpus; cpu++) {
        digits_of(search)[turns] = (uint8_t)('0' + cpu);
        try_orders(search, turns + 1);
    }
}

int main(int count, char **words) {
    struct search search = {.turns = 0};
    if (count != 4)
        fail(1, "the words are three numbers: TURNS ROUNDS CPUS");
    search.turns = number_of(words[1]);
    search.rounds = number_of(words[2]);
    search.cpus = number_of(words[3]);
    if (search.cpus > 10)
        fail(1, "an order has a digit for each of ten processors, and no more");
    search.script = read_script();
    search.text = of_room(65536);
    search.words = of_room(strlen(before_order) + 1);
    add(&search.words, before_order, strlen(before_order));
    for (size_t i = 0; i < search.turns; i++)
        add(&search.words, "0", 1);
    for (size_t i = 0; i < search.rounds; i++)
        add(&search.words, "0123456789", search.cpus);
    // There is room for one digit more, where both are 0.
    add(&search.words, "-", 1);
    try_orders(&search, 0);
    if (fflush(stdout) != 0 || ferror(stdout))
        fail(3, "the reports can't be written");
    return 0;
}
