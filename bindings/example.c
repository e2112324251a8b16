/* A day file on standard input: its plan, as the program `plan` prints it, then its first three plans, as `plans 0 3 5000000` does. */
#include <inttypes.h>
#include <stdio.h>

#include "thalluscrest.h"

enum { FIRST_PLANS = 3, BUDGET = 5000000 };

static uint8_t file[THALLUSCREST_LONGEST_FILE + 1];
static uint16_t mins[64], maxs[64], levels[64], preferences[THALLUSCREST_MOST_PREFERENCES];
static uint8_t optional[64], plan[64], page[FIRST_PLANS * 64];
static uint64_t given[THALLUSCREST_MOST_GIVEN_ROWS], rows[THALLUSCREST_MOST_ROWS], figures[THALLUSCREST_FIGURES];
static size_t choices, slots, choosers, level_count, row_count; /* row_count: the search's part of rows */

/* Reads the day and reduces its rows: a number of enum thalluscrest_refusal, and whether the rows clash. */
static uint8_t read_and_reduce(size_t size, uint64_t *clash)
{
    if (size > THALLUSCREST_LONGEST_FILE) return THALLUSCREST_BAD_FILE_LENGTH;
    uint8_t number = thalluscrest_read_day(file, size, mins, 64, maxs, 64, optional, 64, levels, 64,
        preferences, THALLUSCREST_MOST_PREFERENCES, given, THALLUSCREST_MOST_GIVEN_ROWS, figures);
    if (number != THALLUSCREST_DONE) return number;
    choices = figures[THALLUSCREST_READ_CHOICES], slots = figures[THALLUSCREST_READ_SLOTS];
    choosers = figures[THALLUSCREST_READ_CHOOSERS], level_count = figures[THALLUSCREST_READ_LEVELS];
    number = thalluscrest_reduce(choices, slots, choosers, given, figures[THALLUSCREST_READ_ROWS],
        rows, THALLUSCREST_MOST_ROWS, figures);
    row_count = figures[THALLUSCREST_REDUCED_SEARCH];
    *clash = figures[THALLUSCREST_REDUCED_CLASH];
    return number;
}

static uint8_t print_plan(void)
{
    uint8_t number = thalluscrest_plan_day(choices, slots, choosers, THALLUSCREST_SIMPLIFIED, 0, 100000, 1000000,
        mins, choices, maxs, choices, optional, choices, levels, level_count, preferences, choosers * choices,
        rows, row_count, NULL, 0, NULL, 0, plan, choices, figures);
    if (number != THALLUSCREST_DONE) return number;
    static const char *const results[] = { "none", "found", "turns" };
    printf("result %s\nturns %" PRIu64 "\npasses %" PRIu64 "\nlimit %" PRIu64 "\n", results[figures[THALLUSCREST_SEARCHED_OUTCOME]],
        figures[THALLUSCREST_SEARCHED_TURNS], figures[THALLUSCREST_SEARCHED_PASSES], figures[THALLUSCREST_SEARCHED_LIMIT]);
    for (size_t i = 0; figures[THALLUSCREST_SEARCHED_OUTCOME] == THALLUSCREST_FOUND && i < choices; i++)
        plan[i] == THALLUSCREST_OMITTED ? printf("choice %zu out\n", i) : printf("choice %zu slot %d\n", i, plan[i]);
    return number;
}

static uint8_t print_plans(void)
{
    uint8_t number = thalluscrest_list_page(choices, slots, choosers, mins, choices, maxs, choices, optional, choices,
        rows, row_count, 0, FIRST_PLANS, BUDGET, page, FIRST_PLANS * choices, figures);
    if (number != THALLUSCREST_DONE) return number;
    uint64_t outcome = figures[THALLUSCREST_PAGED_OUTCOME];
    printf("result %s\ntotal %s%" PRIu64 "\n", outcome == THALLUSCREST_OUT_OF_TURNS ? "turns" : "listed",
        outcome == THALLUSCREST_ENDED ? "" : "at least ", figures[THALLUSCREST_PAGED_MET]);
    for (size_t i = 0; i < figures[THALLUSCREST_PAGED_WRITTEN]; i++, putchar('\n')) {
        printf("plan %zu", i);
        for (const uint8_t *cell = page + i * choices; cell < page + (i + 1) * choices; cell++)
            *cell == THALLUSCREST_OMITTED ? printf(" out") : printf(" %d", *cell);
    }
    return number;
}

/* Prints a text, or why there is none. */
static void tell(uint8_t number, uint64_t clash, uint8_t (*print)(void))
{
    if (number == THALLUSCREST_DONE && !clash)
        number = print();
    if (number != THALLUSCREST_DONE)
        printf("result refused %d\n", number);
    else if (clash)
        puts("result clash");
}

int main(void)
{
    uint64_t clash = 0;
    uint8_t number = read_and_reduce(fread(file, 1, sizeof file, stdin), &clash);
    tell(number, clash, print_plan);
    tell(number, clash, print_plans);
}
