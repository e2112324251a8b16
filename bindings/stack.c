/* How many bytes of stack each call takes. It runs on a thread that paints its stack below itself, makes the call, and looks for the
 * lowest byte that changed: what the C library takes to start a thread isn't in it, so that it is the same under every C library and
 * under an emulator. The days are at the limits that make a call deepest: 64 choices, of which a search or a list decides one a step. */
#define _DEFAULT_SOURCE
#include <pthread.h>
#include <stdio.h>
#include <stdlib.h>
#include <string.h>

#include "thalluscrest.h"

/* NEAR: what the painting thread needs for itself, and so the least that can be told. */
enum { STACK = 1 << 20, NEAR = 256, PAINT = 0x5A, C = 64, S = 1, H = 200, L = 2, ROWS = 128 };

static uint8_t file[THALLUSCREST_LONGEST_FILE], optional[64], plan[64], roster[H * S];
static uint16_t mins[64], maxs[64], levels[64], preferences[H * C], set_levels[1024], starts[64], lengths[64], numbers[10240], whole[1024];
static uint64_t given[ROWS], rows[1024], masks[1024], list[1024], figures[8];
static size_t size, searched, count;
static uint8_t number;

static void write_day(void)
{
    number = thalluscrest_write_day(C, S, H, mins, C, maxs, C, optional, C, levels, L, preferences, H * C, given, ROWS, file, sizeof file, figures);
    size = figures[THALLUSCREST_WRITTEN_BYTES];
}
static void read_day(void)
{
    number = thalluscrest_read_day(file, size, mins, 64, maxs, 64, optional, 64, levels, 64, preferences, H * C, given, ROWS, figures);
}
static void reduce(void)
{
    number = thalluscrest_reduce(C, S, H, given, ROWS, rows, 1024, figures);
    searched = figures[THALLUSCREST_REDUCED_SEARCH];
}
static void plan_day(void)
{
    number = thalluscrest_plan_day(C, S, H, THALLUSCREST_SIMPLIFIED, 0, 1000, 10000, mins, C, maxs, C, optional, C, levels, L,
        preferences, H * C, rows, searched, NULL, 0, NULL, 0, plan, C, figures);
}
static void own_map(void)
{
    number = thalluscrest_own_map(C, S, H, rows, searched, starts, 64, lengths, 64, numbers, 10240, figures);
    count = figures[THALLUSCREST_MAPPED_NUMBERS];
}
static void search(void)
{
    number = thalluscrest_search(C, S, H, 1, THALLUSCREST_SIMPLIFIED, 0, 1000, 10000, mins, C, maxs, C, optional, C, levels, L, preferences,
        H * C, rows, searched, starts, 64, lengths, 64, count, numbers, 10240, whole, searched, NULL, 0, NULL, 0, plan, C, figures);
}
static void analyze(void)
{
    number = thalluscrest_analyze(C, S, H, THALLUSCREST_SIMPLIFIED, mins, C, levels, L, preferences, H * C, masks, 1024, set_levels, 1024, figures);
}
static void level_list(void)
{
    number = thalluscrest_level_list(levels, L, levels[L - 1], masks, 1024, set_levels, 1024, figures[THALLUSCREST_SETS_COUNT], list, 1024, figures);
}
static void check_plan(void)
{
    number = thalluscrest_check_plan(C, S, H, mins, C, maxs, C, optional, C, rows, searched, plan, C, figures);
}
static void check_roster(void)
{
    number = thalluscrest_check_roster(C, S, H, mins, C, maxs, C, levels, L, preferences, H * C, rows, searched, rows + searched, 0, plan, C,
        roster, H * S, figures);
}
static void list_plans(void)
{
    number = thalluscrest_list_plans(C, S, H, mins, C, maxs, C, optional, C, rows, searched, 0, 16, 1000000, file, 16 * C, figures);
}
/* The rows of kind 1 alone, which come first: a chooser who is given twice keeps a choice apart from itself, and there is no plan to
 * go down to. */
static void list_page(void)
{
    number = thalluscrest_list_page(C, S, H, mins, C, maxs, C, optional, C, rows, C / 2, 0, 16, 1000000, file, 16 * C, figures);
}

struct job { void (*call)(void); unsigned char *stack; size_t taken; };

/* Stores one by one, by a pointer to volatile: a function that painted would paint itself over. */
static void *run(void *given)
{
    struct job *job = given;
    unsigned char *here = __builtin_frame_address(0);
    for (volatile unsigned char *byte = job->stack; byte < here - NEAR; byte++)
        *byte = PAINT;
    job->call();
    volatile unsigned char *low = job->stack;
    while (low < here - NEAR && *low == PAINT)
        low++;
    job->taken = here - low;
    return NULL;
}

/* The stack that the call takes, NEAR or more. */
static size_t taken(void (*call)(void))
{
    struct job job = { call, aligned_alloc(4096, STACK), 0 };
    pthread_attr_t attributes;
    pthread_t thread;
    pthread_attr_init(&attributes);
    if (!job.stack || pthread_attr_setstack(&attributes, job.stack, STACK) || pthread_create(&thread, &attributes, run, &job)
        || pthread_join(thread, NULL))
        exit(1);
    free(job.stack);
    return job.taken;
}

int main(void)
{
    static const struct { const char *name; void (*call)(void); } calls[] = {
        { "write_day", write_day }, { "read_day", read_day }, { "reduce", reduce }, { "plan_day", plan_day }, { "own_map", own_map },
        { "search", search }, { "analyze", analyze }, { "level_list", level_list }, { "check_plan", check_plan },
        { "check_roster", check_roster }, { "list_plans", list_plans }, { "list_page", list_page } };
    for (int i = 0; i < C; i++)
        mins[i] = 1, maxs[i] = 200, optional[i] = i % 16 == 0;
    for (int i = 0; i < ROWS; i++) {
        thalluscrest_row row = { i % 2 ? THALLUSCREST_CHOOSER_IS_IN_CHOICE : THALLUSCREST_CHOICE_IS_IN_SLOT, i % C, 0, 0 };
        given[i] = thalluscrest_pack_row(row);
    }
    for (int i = 0; i < 1024; i++)
        whole[i] = i;
    levels[1] = 1;
    for (size_t i = 0; i < sizeof calls / sizeof *calls; i++) {
        size_t bytes = taken(calls[i].call);
        printf("%-12s %s%6zu bytes of stack, number %d\n", calls[i].name, bytes > NEAR ? "" : "at most ", bytes, number);
        if (bytes > (calls[i].call == list_page ? 458752 : 65536))
            return 1;
    }
}
