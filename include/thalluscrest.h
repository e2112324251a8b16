/* Thalluscrest's calls for programs in C and C++.
 *
 * WHAT IT IS ABOUT
 *
 * A day has C choices (stations), S slots (blocks of the day), H choosers (people) and L levels. A plan puts each
 * choice into one slot, or leaves it out if it is optional. A plan is feasible if it omits only optional choices,
 * keeps every row (rule) of its list, and in each slot the minimums of the choices there sum to at most H and the
 * maximums to at least H: everybody has a place in every slot. A roster seats each chooser in one choice of each
 * slot. A preference is a number, lower is better; a level is such a number, levels rise, and a preference needn't
 * be one. A search tests what it places by the preferences up to a limit (its critical sets), and where it finds no
 * plan it raises the limit level by level; at the last level that test leaves every feasible plan.
 *
 * Build (in the project's folder, with Rattle's `rt`; it makes crates/thalluscrest/out/libthalluscrest.a) and link
 * (the archive is all it takes):
 *
 *     (cd crates/thalluscrest && rt lib)
 *     cc -std=c11 -Iinclude program.c crates/thalluscrest/out/libthalluscrest.a -o program
 *
 * The archive is compiled for x86-64 Linux, on whatever machine it is made, and links into x86-64 programs only. On
 * an Arm machine compile with x86_64-linux-gnu-gcc (Debian's gcc-x86-64-linux-gnu) in the place of cc, and run with
 * `./thalluscrest run ./program`. It needs nothing but memset, memcpy and their like from the C library.
 *
 * WHAT HOLDS FOR EVERY CALL
 *
 * Answer. A call hands back 0 (THALLUSCREST_DONE), or the number of why it refuses (enum thalluscrest_refusal).
 * Lowest number first; read_day has the order 2, 11, 12, 1, 11, 13, 3, 4, 5. What else it has to say stands in
 * `figures`, eight numbers that every call writes whole, refused or not. Figures that the call's own text below
 * doesn't name are 0. After a refusal figure THALLUSCREST_ROW says which row is bad if the number is
 * THALLUSCREST_BAD_ROW, and all others are 0.
 *
 * Buffers. A buffer is a pointer to its first element, aligned as its type asks, and its length in elements (not
 * bytes); the two stand side by side. A call takes any numbers and any lengths and judges them itself. What it
 * can't judge is up to the caller: each pointer leads to as many elements as its length says (figures: 8), and no
 * buffer that a call writes overlaps another one of the same call. Where a length is 0 the pointer may be NULL.
 *
 * Lengths. A pool's length has to be the one that the call's text names, whatever part of it is used; every other
 * length is the one that the counts give. Else 2. How many rows are lent is itself a count, like C, S and H: more
 * than the call takes (128 given ones, 1,024 else) is refused with 1.
 *
 * After the call. What is `const` is never written. A refusal leaves every other buffer but `figures` as it was,
 * but for numbers 6 and 7 of a call that fills pools: they leave those pools all zero. Success fills a pool from
 * its front and zeroes the rest.
 *
 * Nothing else. No call allocates, keeps a pointer, or reads or writes anything but its buffers and its stack;
 * there is no data of its own that changes. So calls may run in any number of threads at once, each with its own
 * buffers. Stack: list_page takes about 247 KB, since its tables stand there; of the other calls the most that was
 * measured is 47 KB, of plan_day.
 */
#ifndef THALLUSCREST_H
#define THALLUSCREST_H

#include <stddef.h>
#include <stdint.h>

#ifdef __cplusplus
extern "C" {
#endif

/* ---- limits ---- */

enum {
    THALLUSCREST_MOST_CHOICES = 64,        /* choices C, 0 and up */
    THALLUSCREST_MOST_SLOTS = 24,          /* slots S, 0 and up */
    THALLUSCREST_MOST_CHOOSERS = 200,      /* choosers H, 0 and up */
    THALLUSCREST_MOST_LEVELS = 64,         /* levels L, 1 and up */
    THALLUSCREST_MOST_PREFERENCES = 12800, /* H times C */
    THALLUSCREST_MOST_GIVEN_ROWS = 128,    /* given rows: of a day file read or written, and what the reduction takes */
    THALLUSCREST_MOST_ROWS = 1024,         /* rows that the reduction gives, and what the calls after it take */
    THALLUSCREST_MOST_SETS = 1024,         /* critical sets */
    THALLUSCREST_MOST_MAP_NUMBERS = 10240, /* numbers of a map */
    THALLUSCREST_LONGEST_FILE = 26827,     /* bytes of a day file */
    THALLUSCREST_FIGURES = 8,              /* numbers lent for what an answer carries */
    THALLUSCREST_OMITTED = 255,            /* the cell of a choice that a plan leaves out */
    THALLUSCREST_NO_ENTRY = 65535          /* the start of a choice that has no entry in a map */
};

/* ---- what a call hands back ---- */

enum thalluscrest_refusal {
    THALLUSCREST_DONE = 0,
    THALLUSCREST_BAD_COUNT = 1,       /* a count is outside its range */
    THALLUSCREST_BAD_LENGTH = 2,      /* a buffer has the wrong length */
    THALLUSCREST_BAD_LEVELS = 3,      /* levels don't rise strictly */
    THALLUSCREST_BAD_PREFERENCE = 4,  /* a preference is above the last level */
    THALLUSCREST_BAD_ROW = 5,         /* a row is bad; figures[THALLUSCREST_ROW] is the first such row */
    THALLUSCREST_TOO_MANY = 6,        /* over 1,024 rows before equals are dropped, or over 10,240 map numbers */
    THALLUSCREST_TOO_MANY_SETS = 7,   /* over 1,024 critical sets are kept before simplifying */
    THALLUSCREST_BAD_ORDERS = 8,      /* orders aren't whole permutations of 0..C-1, or aren't empty for C 0 */
    THALLUSCREST_BAD_PLAN_CELL = 9,   /* a plan's cell is neither below S nor THALLUSCREST_OMITTED */
    THALLUSCREST_BAD_ROSTER_CELL = 10,/* a roster's cell doesn't name a scheduled choice */
    THALLUSCREST_BAD_FILE_LENGTH = 11,/* a file is shorter than 11 bytes, or a length in it is wrong */
    THALLUSCREST_BAD_VERSION = 12,    /* a file's version isn't 1 */
    THALLUSCREST_BAD_OPTIONAL = 13,   /* an optional byte isn't 0 or 1 */
    THALLUSCREST_BAD_MAP = 14         /* an entry runs past its numbers, a number names no row, or `whole` is wrong */
};

/* after every refusal */
enum { THALLUSCREST_ROW = 0 };

/* ---- rows ---- */

/* The kinds of rows, and what left, right and extra hold. Extra is 0 where nothing is said. A row is bad if its kind
 * isn't here or isn't one that the call takes, if a choice, slot or chooser that it names isn't below its count, or
 * if extra isn't as said. Left and right may be the same. */
enum thalluscrest_kind {
    THALLUSCREST_CHOICE_IS_IN_SLOT = 1,            /* choice, slot */
    THALLUSCREST_CHOICE_IS_NOT_IN_SLOT = 2,        /* choice, slot */
    THALLUSCREST_CHOICES_ARE_IN_SAME_SLOT = 3,     /* choice, choice */
    THALLUSCREST_CHOICES_ARE_NOT_IN_SAME_SLOT = 4, /* choice, choice */
    THALLUSCREST_CHOICES_HAVE_OFFSET = 5,          /* choice, choice, right slot minus left slot: -32,767..32,767 */
    THALLUSCREST_SLOT_HAS_LIMITED_SIZE = 6,        /* slot, limit 0..65,535, enum thalluscrest_op */
    THALLUSCREST_SLOT_CONTAINS_CHOICE = 7,         /* slot, choice; given rows only */
    THALLUSCREST_SLOT_NOT_CONTAINS_CHOICE = 8,     /* slot, choice; given rows only */
    THALLUSCREST_SLOTS_HAVE_SAME_CHOICES = 9,      /* slot, slot; given rows only */
    THALLUSCREST_CHOICES_HAVE_SAME_CHOOSERS = 10,  /* choice, choice */
    THALLUSCREST_CHOOSER_IS_IN_CHOICE = 11,        /* chooser, choice */
    THALLUSCREST_CHOOSER_IS_NOT_IN_CHOICE = 12,    /* chooser, choice */
    THALLUSCREST_CHOOSERS_HAVE_SAME_CHOICES = 13,  /* chooser, chooser */
    THALLUSCREST_CHOICE_CONTAINS_CHOOSER = 14,     /* choice, chooser; given rows only */
    THALLUSCREST_CHOICE_NOT_CONTAINS_CHOOSER = 15  /* choice, chooser; given rows only */
};

/* How the number of choices in a slot stands to the limit. */
enum thalluscrest_op {
    THALLUSCREST_EQ = 1, THALLUSCREST_GT = 2, THALLUSCREST_GEQ = 3,
    THALLUSCREST_NEQ = -1, THALLUSCREST_LEQ = -2, THALLUSCREST_LT = -3
};

/* A row's columns. Choices, slots and choosers count from 0. */
typedef struct thalluscrest_row {
    uint16_t kind, left, right;
    int16_t extra;
} thalluscrest_row;

/* In every buffer a row is one number: kind * 2^48 + left * 2^32 + right * 2^16 + (extra + 32,768). */
static inline uint64_t thalluscrest_pack_row(thalluscrest_row row)
{
    return (uint64_t)row.kind << 48 | (uint64_t)row.left << 32 | (uint64_t)row.right << 16
        | (uint64_t)(row.extra + 32768);
}

static inline thalluscrest_row thalluscrest_unpack_row(uint64_t number)
{
    thalluscrest_row row;
    row.kind = (uint16_t)(number >> 48);
    row.left = (uint16_t)(number >> 32 & 65535);
    row.right = (uint16_t)(number >> 16 & 65535);
    row.extra = (int16_t)((int32_t)(number & 65535) - 32768);
    return row;
}

/* ---- a day read, written and reduced ---- */

/* Reads a day file. Pools: mins, maxs, optional and levels 64 each, preferences 12,800, rows 128; what the file
 * holds stands at their fronts: min, max and optional flag of each choice, the levels, each chooser's preference
 * for each choice (chooser by chooser), the given rows. Refuses with 2 (a pool's length), 11, 12, 1, 13, 3, 4, 5. */
enum {
    THALLUSCREST_READ_CHOICES = 0, /* figures after thalluscrest_read_day: C, S, H, L and how many rows */
    THALLUSCREST_READ_SLOTS = 1,
    THALLUSCREST_READ_CHOOSERS = 2,
    THALLUSCREST_READ_LEVELS = 3,
    THALLUSCREST_READ_ROWS = 4
};
uint8_t thalluscrest_read_day(
    const uint8_t *file, size_t file_length,
    uint16_t *mins, size_t mins_length,
    uint16_t *maxs, size_t maxs_length,
    uint8_t *optional, size_t optional_length,
    uint16_t *levels, size_t levels_length,
    uint16_t *preferences, size_t preferences_length,
    uint64_t *rows, size_t rows_length,
    uint64_t *figures);

/* Writes a day's file. mins, maxs and optional have C elements, levels L, preferences H * C, rows up to 128: lend
 * the front of a pool that read_day filled with the length that its figures say. Pool: file 26,827. Refuses with
 * 1, 2, 3, 4, 5, 13. */
enum { THALLUSCREST_WRITTEN_BYTES = 0 }; /* how long the file is */
uint8_t thalluscrest_write_day(
    size_t choices, size_t slots, size_t choosers,
    const uint16_t *mins, size_t mins_length,
    const uint16_t *maxs, size_t maxs_length,
    const uint8_t *optional, size_t optional_length,
    const uint16_t *levels, size_t levels_length,
    const uint16_t *preferences, size_t preferences_length,
    const uint64_t *rows, size_t rows_length,
    uint8_t *file, size_t file_length,
    uint64_t *figures);

/* Reduces given rows (0 to 128, of every kind but 0), once: a reduction isn't to be reduced again. Pool: `pool`
 * 1,024. Its first THALLUSCREST_REDUCED_SEARCH rows, kinds 1 to 6, are what the calls below take as `rows`; the
 * THALLUSCREST_REDUCED_ROSTER rows after them, kinds 10 to 13, are check_roster's `assignment_rows`. So cut the pool
 * there: a call that is lent all rows refuses the first one of kind 10 to 13 with 5.
 *
 * What it does: kinds 7, 8, 14 and 15 become 1, 2, 11 and 12; choices tied by rows of kind 10 are one group. It adds
 * a row of kind 4 for every two choices of a group, and for every two given rows of kinds 11 and 14 of one chooser
 * (the choice that comes first stands left); and each row of kind 11 or 12 for every other choice of its group. Rows
 * so added make no further ones. Then rows rise by their number, and equal ones are dropped. Over 1,024 before that
 * is 6: one chooser tied to 45 choices is enough.
 *
 * The search's rows are what every plan needs, not all that a roster needs: a feasible plan may have no roster that
 * keeps the roster's rows (kind 13 and rows added for a group bind the roster alone). Seating is the caller's.
 *
 * Where THALLUSCREST_REDUCED_CLASH is 1 two different slots were said to have the same choices (kind 9). The rows
 * don't hold that rule any more, so don't hand them on: the day is to be told as clashing, and a search of its rows
 * may well find a plan. The same chooser and choice in two given rows, of kind 11, 14 or one of each, make a row of
 * kind 4 of that choice with itself, and no plan that holds the choice keeps it; any other rule may be given twice.
 * Refuses with 1, 2, 5, 6. */
enum {
    THALLUSCREST_REDUCED_ROWS = 0,   /* how many rows there are */
    THALLUSCREST_REDUCED_CLASH = 1,  /* 1 for a clash, else 0 */
    THALLUSCREST_REDUCED_SEARCH = 2, /* how many rows at the front are the search's */
    THALLUSCREST_REDUCED_ROSTER = 3  /* how many rows after them are the roster's */
};
uint8_t thalluscrest_reduce(
    size_t choices, size_t slots, size_t choosers,
    const uint64_t *rows, size_t rows_length,
    uint64_t *pool, size_t pool_length,
    uint64_t *figures);

/* ---- a plan searched for ---- */

/* How critical sets are made: every other number is THALLUSCREST_SIMPLIFIED. */
enum thalluscrest_analysis {
    THALLUSCREST_OFF = 0,
    THALLUSCREST_ON = 1,
    THALLUSCREST_SIMPLIFIED = 2
};

/* What a search answers, in figure 0. */
enum thalluscrest_outcome {
    THALLUSCREST_NONE = 0,        /* there is no plan (of plan_day: none at all) */
    THALLUSCREST_FOUND = 1,       /* the plan stands in its buffer */
    THALLUSCREST_OUT_OF_TURNS = 2 /* the total budget is spent */
};

/* Plans a day: the full search with the day's own map. mins, maxs, optional and plan have C elements, levels L,
 * preferences H * C; rows are the search's part of a reduction (kinds 1 to 6, 0 to 1,024). `at_last_level` 0
 * starts at the bound and goes up level by level; every other number starts at the last level. A pass ends after
 * pass_budget turns (but for the last level's), the call after total_budget. `orders` has whole permutations of
 * 0..C-1 one after the other, or nothing; `draws` any numbers, or none. The program `plan` asks for
 * THALLUSCREST_SIMPLIFIED, 0, budgets of 100,000 and 1,000,000, no orders, no draws. plan: a slot for each choice,
 * or THALLUSCREST_OMITTED, after THALLUSCREST_FOUND; else as it was. Refuses with 1, 2, 3, 4, 5, 6, 7, 8, 13; 6
 * and 7 leave the plan as it was. */
enum {
    THALLUSCREST_SEARCHED_OUTCOME = 0, /* enum thalluscrest_outcome */
    THALLUSCREST_SEARCHED_TURNS = 1,
    THALLUSCREST_SEARCHED_PASSES = 2,  /* passes begun */
    THALLUSCREST_SEARCHED_LIMIT = 3    /* the last pass's limit: a level, or the bound */
};
uint8_t thalluscrest_plan_day(
    size_t choices, size_t slots, size_t choosers,
    uint8_t analysis, uint8_t at_last_level, uint64_t pass_budget, uint64_t total_budget,
    const uint16_t *mins, size_t mins_length,
    const uint16_t *maxs, size_t maxs_length,
    const uint8_t *optional, size_t optional_length,
    const uint16_t *levels, size_t levels_length,
    const uint16_t *preferences, size_t preferences_length,
    const uint64_t *rows, size_t rows_length,
    const uint8_t *orders, size_t orders_length,
    const uint32_t *draws, size_t draws_length,
    uint8_t *plan, size_t plan_length,
    uint64_t *figures);

/* The search with everything lent, as plan_day but: `full` 0 searches as the published Rust does (the program
 * wassign, whose scheduling part this is), every other number in full; the map is the caller's. starts and lengths
 * (pools, 64 each) say for each choice where its entry begins in numbers (pool, 10,240, `count` of them used) and
 * how many row numbers it has; where a choice's start is THALLUSCREST_NO_ENTRY it has none, and all rows are its
 * own: `whole`, which is 0, 1, 2 .. up to one less than the number of rows. own_map fills the three pools so that
 * every choice has an entry. Refuses with 1, 2, 3, 4, 5, 7, 8, 13, 14; 7 leaves the plan as it was. Figures as
 * after plan_day. */
uint8_t thalluscrest_search(
    size_t choices, size_t slots, size_t choosers,
    uint8_t full, uint8_t analysis, uint8_t at_last_level, uint64_t pass_budget, uint64_t total_budget,
    const uint16_t *mins, size_t mins_length,
    const uint16_t *maxs, size_t maxs_length,
    const uint8_t *optional, size_t optional_length,
    const uint16_t *levels, size_t levels_length,
    const uint16_t *preferences, size_t preferences_length,
    const uint64_t *rows, size_t rows_length,
    const uint16_t *starts, size_t starts_length,
    const uint16_t *lengths, size_t lengths_length,
    size_t count,
    const uint16_t *numbers, size_t numbers_length,
    const uint16_t *whole, size_t whole_length,
    const uint8_t *orders, size_t orders_length,
    const uint32_t *draws, size_t draws_length,
    uint8_t *plan, size_t plan_length,
    uint64_t *figures);

/* The own map of rows of kinds 1 to 6: for each choice the rows of kinds 1 to 5 that name it, and all of kind 6.
 * Pools: starts and lengths 64 each, numbers 10,240. Refuses with 1, 2, 5, 6. */
enum { THALLUSCREST_MAPPED_NUMBERS = 0 }; /* how many numbers the map has: the search's `count` */
uint8_t thalluscrest_own_map(
    size_t choices, size_t slots, size_t choosers,
    const uint64_t *rows, size_t rows_length,
    uint16_t *starts, size_t starts_length,
    uint16_t *lengths, size_t lengths_length,
    uint16_t *numbers, size_t numbers_length,
    uint64_t *figures);

/* The critical sets of a day. mins has C elements, levels L, preferences H * C. Pools: masks and set_levels 1,024
 * each; of a set, bit c of its mask says whether choice c is in it. Refuses with 1, 2, 3, 4, 7. */
enum {
    THALLUSCREST_SETS_COUNT = 0, /* how many sets there are */
    THALLUSCREST_SETS_BOUND = 1  /* the limit that a search starts at; 0 for THALLUSCREST_OFF */
};
uint8_t thalluscrest_analyze(
    size_t choices, size_t slots, size_t choosers, uint8_t analysis,
    const uint16_t *mins, size_t mins_length,
    const uint16_t *levels, size_t levels_length,
    const uint16_t *preferences, size_t preferences_length,
    uint64_t *masks, size_t masks_length,
    uint16_t *set_levels, size_t set_levels_length,
    uint64_t *figures);

/* The sets that a search with this limit tests: of the first `count` sets of two pools (1,024 each) those of the
 * limit's level or above that hold no other of them, smallest first; none where the limit is no level. Pool: list
 * 1,024. Refuses with 1, 2, 3. */
enum { THALLUSCREST_LEVEL_SETS = 0 }; /* how many there are */
uint8_t thalluscrest_level_list(
    const uint16_t *levels, size_t levels_length, uint16_t limit,
    const uint64_t *masks, size_t masks_length,
    const uint16_t *set_levels, size_t set_levels_length, size_t count,
    uint64_t *list, size_t list_length,
    uint64_t *figures);

/* ---- plans and rosters checked, plans listed ---- */

/* Checks whether a plan is feasible, as said at the top; the search finds such plans and no other. mins, maxs,
 * optional and plan have C elements; rows are of kinds 1 to 6. A choice left out keeps rows of kinds 2 and 4, breaks
 * one of kind 1, and keeps one of kinds 3 and 5 only if the other choice is left out too. Refuses with 1, 2, 5, 9,
 * 13. */
enum { THALLUSCREST_CHECKED_FEASIBLE = 0 }; /* 1 for a feasible plan, else 0 */
uint8_t thalluscrest_check_plan(
    size_t choices, size_t slots, size_t choosers,
    const uint16_t *mins, size_t mins_length,
    const uint16_t *maxs, size_t maxs_length,
    const uint8_t *optional, size_t optional_length,
    const uint64_t *rows, size_t rows_length,
    const uint8_t *plan, size_t plan_length,
    uint64_t *figures);

/* Checks who sits where: roster has H * S cells, chooser by chooser, each a choice that the plan schedules. rows
 * are of kinds 1 to 6, assignment_rows of kinds 10 to 13. After 5 figure THALLUSCREST_ROW counts through both
 * lists: a row of the second is told as rows_length more. Refuses with 1, 2, 3, 4, 5, 9, 10. */
enum {
    THALLUSCREST_ROSTER_PASSES = 0, /* 1 for a roster that passes, else 0 */
    THALLUSCREST_ROSTER_HIGHEST = 1 /* the highest preference met, passed or not */
};
uint8_t thalluscrest_check_roster(
    size_t choices, size_t slots, size_t choosers,
    const uint16_t *mins, size_t mins_length,
    const uint16_t *maxs, size_t maxs_length,
    const uint16_t *levels, size_t levels_length,
    const uint16_t *preferences, size_t preferences_length,
    const uint64_t *rows, size_t rows_length,
    const uint64_t *assignment_rows, size_t assignment_rows_length,
    const uint8_t *plan, size_t plan_length,
    const uint8_t *roster, size_t roster_length,
    uint64_t *figures);

/* Lists the plans of a day in dictionary order, from number `first` (0 and up) on, as many as there is room for.
 * buffer has room * C elements; plan i of the page is C cells from i * C on, and what is past the page stays as it
 * was. rows are of kinds 1 to 6. `budget` is how many starts of plans may be looked at: a day of many choices has
 * more than can be looked at, and then it is out of turns, the buffer as it was. Refuses with 1, 2, 5, 13. */
enum {
    THALLUSCREST_LISTED_OUTCOME = 0, /* THALLUSCREST_FOUND for a page, or THALLUSCREST_OUT_OF_TURNS */
    THALLUSCREST_LISTED_WRITTEN = 1, /* how many plans the page has */
    THALLUSCREST_LISTED_TOTAL = 2,   /* how many plans the day has */
    THALLUSCREST_LISTED_NODES = 3    /* how many starts were looked at */
};
uint8_t thalluscrest_list_plans(
    size_t choices, size_t slots, size_t choosers,
    const uint16_t *mins, size_t mins_length,
    const uint16_t *maxs, size_t maxs_length,
    const uint8_t *optional, size_t optional_length,
    const uint64_t *rows, size_t rows_length,
    uint64_t first, uint64_t room, uint64_t budget,
    uint8_t *buffer, size_t buffer_length,
    uint64_t *figures);

/* What a page answers, in figure 0; out of turns is THALLUSCREST_OUT_OF_TURNS. */
enum thalluscrest_paged {
    THALLUSCREST_ENDED = 0,  /* no plan comes after the page */
    THALLUSCREST_GOES_ON = 1 /* one does */
};

/* Lists a page of the same list, and looks at far fewer starts of plans: it gives up a start that no plan goes on
 * from as soon as it sees that, and stops at the first plan after the page. So it is the call for days of many
 * choices. What is lent and refused is as with list_plans. Room 0 asks for the total alone: the list is walked to its
 * end. `budget` is how many starts may be looked at, and one that list_plans has enough of is enough here. After
 * THALLUSCREST_OUT_OF_TURNS the plans that were met before stand on the page, each as it would in the whole list;
 * there may be more, on the page and after it. Takes about 247 KB of stack. */
enum {
    THALLUSCREST_PAGED_OUTCOME = 0, /* enum thalluscrest_paged, or THALLUSCREST_OUT_OF_TURNS */
    THALLUSCREST_PAGED_WRITTEN = 1, /* how many plans stand on the page */
    THALLUSCREST_PAGED_MET = 2      /* plans met, from number 0 on: after THALLUSCREST_ENDED how many the day has,
                                       after THALLUSCREST_GOES_ON first + room + 1 */
};
uint8_t thalluscrest_list_page(
    size_t choices, size_t slots, size_t choosers,
    const uint16_t *mins, size_t mins_length,
    const uint16_t *maxs, size_t maxs_length,
    const uint8_t *optional, size_t optional_length,
    const uint64_t *rows, size_t rows_length,
    uint64_t first, uint64_t room, uint64_t budget,
    uint8_t *buffer, size_t buffer_length,
    uint64_t *figures);

#ifdef __cplusplus
}
#endif

#endif
