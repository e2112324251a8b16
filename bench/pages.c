/* Asks the library for pages of plans, many of many days in one run. bench/against_clasp builds it, and
 * oracle/real_lists takes it:
 *
 *     cc -std=c11 -O2 -Iinclude bench/pages.c crates/thalluscrest/out/libthalluscrest.a -o target/bench/pages
 *
 * On another machine than x86-64 by x86_64-linux-gnu-gcc, and run by `./thalluscrest run`; a time is then the emulator's.
 *
 * Each line on standard input is a question; FILE is a day as oracle/real_days.py tells it in NAME.txt.
 *
 *     page FILE FIRST ROOM BUDGET           the text that `plans` prints, and an empty line
 *     time FILE FIRST ROOM BUDGET SECONDS   calls it anew until the seconds are past, once at least, and prints
 *                                           `OUTCOME MET CALLS SECONDS`: listed, goes-on or turns; plans met; calls;
 *                                           processor seconds of a call
 */
#define _POSIX_C_SOURCE 200809L
#include <inttypes.h>
#include <stdio.h>
#include <stdlib.h>
#include <string.h>
#include <time.h>

#include "thalluscrest.h"

enum { MOST_ROOM = 1024 };
enum outcome { LISTED, GOES_ON, TURNS };
static const char *const outcomes[] = { "listed", "goes-on", "turns" };

struct day {
    size_t choices, slots, choosers, row_count;
    uint16_t mins[64], maxs[64];
    uint8_t optional[64];
    uint64_t rows[THALLUSCREST_MOST_ROWS];
};

/* refused is 0 or 01's number; met counts the plans met; written those of the page. */
struct answer {
    uint8_t refused;
    enum outcome outcome;
    uint64_t met, written;
};

static uint8_t buffer[MOST_ROOM * 64];

/* THE CALL: the one place that knows its signature. */
static struct answer page(const struct day *day, uint64_t first, uint64_t room, uint64_t budget)
{
    uint64_t figures[THALLUSCREST_FIGURES];
    size_t c = day->choices;
    struct answer answer = { .refused = thalluscrest_list_page(c, day->slots, day->choosers, day->mins, c, day->maxs, c,
        day->optional, c, day->rows, day->row_count, first, room, budget, buffer, room * c, figures) };
    answer.met = figures[THALLUSCREST_PAGED_MET];
    answer.written = figures[THALLUSCREST_PAGED_WRITTEN];
    if (figures[THALLUSCREST_PAGED_OUTCOME] == THALLUSCREST_OUT_OF_TURNS)
        answer.outcome = TURNS;
    else if (figures[THALLUSCREST_PAGED_OUTCOME] == THALLUSCREST_GOES_ON)
        answer.outcome = GOES_ON;
    return answer;
}

static void fail(const char *why, const char *what)
{
    fprintf(stderr, "pages: %s %s\n", why, what);
    exit(1);
}

static void read_day(const char *path, struct day *day)
{
    FILE *file = fopen(path, "r");
    if (!file || fscanf(file, "%zu %zu %zu %zu", &day->choices, &day->slots, &day->choosers, &day->row_count) != 4)
        fail("can't read", path);
    if (day->choices > 64 || day->row_count > THALLUSCREST_MOST_ROWS)
        fail("too large:", path);
    for (size_t i = 0; i < day->choices; i++)
        if (fscanf(file, "%" SCNu16 " %" SCNu16 " %" SCNu8, &day->mins[i], &day->maxs[i], &day->optional[i]) != 3)
            fail("can't read", path);
    for (size_t i = 0; i < day->row_count; i++) {
        thalluscrest_row row;
        if (fscanf(file, "%" SCNu16 " %" SCNu16 " %" SCNu16 " %" SCNd16, &row.kind, &row.left, &row.right, &row.extra) != 4)
            fail("can't read", path);
        day->rows[i] = thalluscrest_pack_row(row);
    }
    fclose(file);
}

static void print_plans(const struct day *day, uint64_t first, uint64_t written)
{
    for (uint64_t i = 0; i < written; i++, putchar('\n')) {
        printf("plan %" PRIu64, first + i);
        for (const uint8_t *cell = buffer + i * day->choices; cell < buffer + (i + 1) * day->choices; cell++)
            *cell == THALLUSCREST_OMITTED ? printf(" out") : printf(" %d", *cell);
    }
}

static void print_page(const struct day *day, uint64_t first, uint64_t room, uint64_t budget)
{
    struct answer answer = page(day, first, room, budget);
    if (answer.refused) {
        printf("result refused %d\n\n", answer.refused);
        return;
    }
    printf("result %s\ntotal %s%" PRIu64 "\n", answer.outcome == TURNS ? "turns" : "listed",
        answer.outcome == LISTED ? "" : "at least ", answer.met);
    print_plans(day, first, answer.written);
    putchar('\n');
}

static double seconds(void)
{
    struct timespec now;
    clock_gettime(CLOCK_PROCESS_CPUTIME_ID, &now);
    return now.tv_sec + now.tv_nsec / 1e9;
}

static void print_time(const struct day *day, uint64_t first, uint64_t room, uint64_t budget, double least)
{
    double begin = seconds();
    struct answer answer;
    uint64_t calls = 0;
    do {
        answer = page(day, first, room, budget);
        calls++;
    } while (seconds() - begin < least);
    if (answer.refused)
        fail("refused", "");
    printf("%s %" PRIu64 " %" PRIu64 " %.9f\n", outcomes[answer.outcome], answer.met, calls, (seconds() - begin) / calls);
}

int main(void)
{
    static struct day day;
    char line[4200], word[8], path[4096];
    while (fgets(line, sizeof line, stdin)) {
        uint64_t first, room, budget;
        double least = 0;
        if (sscanf(line, "%7s %4095s %" SCNu64 " %" SCNu64 " %" SCNu64 " %lf", word, path, &first, &room, &budget, &least) < 5
            || room > MOST_ROOM)
            fail("can't read the question", line);
        read_day(path, &day);
        if (strcmp(word, "time") == 0)
            print_time(&day, first, room, budget, least);
        else
            print_page(&day, first, room, budget);
        fflush(stdout);
    }
}
