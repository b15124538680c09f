/* Each call in a thread that has just the stack that the header states. A thread's own records and the frames of the C library take a part of its
 * stack that differs from system to system; so the thread gets THREAD bytes more, uses its stack up until the stated bytes are left, and makes the
 * call there. What this program itself puts on the stack from there on counts as the call's. Below the stack lies memory that may not be touched.
 *
 * The dynamic linker looks up memcpy and memset on the caller's stack when they are first called. With LD_BIND_NOT=1 in the environment, and linked
 * with -z lazy, it does so at every call, so that each call is measured as if it were the first of its process. */
#define _DEFAULT_SOURCE
#include <inttypes.h>
#include <pthread.h>
#include <stdio.h>
#include <stdlib.h>
#include <string.h>
#include <sys/mman.h>

#include "multipartition.h"

enum { THREAD = 1 << 16, GUARD = 1 << 20, UNUSED = 0xA5, MOST = 5, PROCESSORS = 4096, PROBES = 1000, SIDE = 1000, N = MULTIPARTITION_PLAN_LENGTH };

static uint32_t plan[N], swept[N], square[N], diagonal[N];
static uint32_t position[MOST];
static uint32_t answer[MULTIPARTITION_TIMETABLE_LENGTH];
static uint32_t elements[PROBES], slabs[PROBES];
static uint8_t caption[2 * MULTIPARTITION_SHEET_CAPTION], sheet[MULTIPARTITION_SHEET_LENGTH];
static uint32_t *heads, *nexts;
static size_t tiles;

static void check(uint64_t returned)
{
    if (returned != MULTIPARTITION_ANSWERED)
        exit(EXIT_FAILURE);
}

static const uint32_t extents[MOST] = {1000000, 1000000, 1000000, 1000000, 1000000};
static const uint32_t weights[][MOST] = {{1, 1, 1, 1, 1}, {0, 0, 1, 30809, 1559}, {10000, 1000, 100, 10, 1}};
static const uint32_t least[MOST] = {244, 1, 3, 2, 244}; /* 4096 cuts fit in every dimension */

/* Every processor count with every number of dimensions, without least thicknesses and with them. */
static void plan_all(void)
{
    for (uint32_t p = 1; p <= PROCESSORS; p++)
        for (uint32_t d = 2; d <= MOST; d++)
            for (size_t w = 0; w < sizeof weights / sizeof *weights; w++) {
                check(multipartition_plan(p, d, extents, d, weights[w], d, least, 0, plan, N));
                check(multipartition_plan(p, d, extents, d, weights[w], d, least, d, plan, N));
            }
}

/* The largest cube in which a job is refused, for every processor count but 1 and every number of dimensions: from a roomy one on, each is smaller by
 * one than the cuts of the last one need. */
static uint32_t too_small[MOST + 1][PROCESSORS + 1];

static void find_too_small(void)
{
    for (uint32_t d = 2; d <= MOST; d++)
        for (uint32_t p = 2; p <= PROCESSORS; p++) {
            uint32_t cube[MOST] = {PROCESSORS, PROCESSORS, PROCESSORS, PROCESSORS, PROCESSORS};
            while (multipartition_plan(p, d, cube, d, weights[0], d, least, 0, plan, N) == MULTIPARTITION_ANSWERED) {
                uint32_t most = 0;
                for (uint32_t k = 0; k < d; k++)
                    most = plan[MULTIPARTITION_CUTS + k] > most ? plan[MULTIPARTITION_CUTS + k] : most;
                for (uint32_t k = 0; k < d; k++)
                    cube[k] = most - 1;
            }
            too_small[d][p] = cube[0];
        }
}

/* What is found is checked too: a divisor or nothing. */
static void ask_share(uint32_t p, uint32_t d, const uint32_t *grid, const uint32_t *by, const uint32_t *thick, size_t length, uint32_t found)
{
    check(multipartition_smallest_refused(p, d, grid, d, by, d, thick, length, answer, MULTIPARTITION_SMALLEST_REFUSED_LENGTH));
    if (answer[MULTIPARTITION_SMALLEST_REFUSED_FOUND] != found)
        exit(EXIT_FAILURE);
}

/* Every processor count with every number of dimensions, where all divisors are accepted, and where p and not many others are refused; without least
 * thicknesses and with them. Then grids in which no count is accepted. */
static void ask_shares(void)
{
    const uint32_t thicker[MOST] = {1000001, 1000001, 1000001, 1000001, 1000001};
    for (uint32_t p = 1; p <= PROCESSORS; p++)
        for (uint32_t d = 2; d <= MOST; d++) {
            const uint32_t *by = weights[p % (sizeof weights / sizeof *weights)];
            ask_share(p, d, extents, by, least, 0, 0);
            ask_share(p, d, extents, by, least, d, 0);
            ask_share(p, d, extents, by, thicker, d, 1);
            if (p == 1)
                continue;
            uint32_t cube[MOST], thick_cube[MOST];
            for (uint32_t k = 0; k < d; k++) {
                cube[k] = too_small[d][p];
                thick_cube[k] = too_small[d][p] * least[k];
            }
            ask_share(p, d, cube, by, least, 0, 1);
            ask_share(p, d, thick_cube, by, least, d, 1);
        }
}

/* Every processor count with two dimensions, and every square with three, likewise. */
static void plan_all_diagonally(void)
{
    for (size_t w = 0; w < sizeof weights / sizeof *weights; w++)
        for (uint32_t given = 0; given < 2; given++) {
            for (uint32_t p = 1; p <= PROCESSORS; p++)
                check(multipartition_diagonal(p, 2, extents, 2, weights[w], 2, least, given * 2, diagonal, N));
            for (uint32_t s = 1; s <= 64; s++)
                check(multipartition_diagonal(s * s, 3, extents, 3, weights[w], 3, least, given * 3, diagonal, N));
        }
}

/* The questions are about the plan of a count with most divisors; for sweeps, with extents that message lengths allow. The chains are also asked of a
 * plan with SIDE slabs in both of its dimensions, which has fewer processors and fewer tiles. */
static void plan_one(void)
{
    const uint32_t narrow[MOST] = {255, 255, 255, 255, 255};
    check(multipartition_plan(3360, MOST, narrow, MOST, weights[0], MOST, least, 0, swept, N));
    check(multipartition_plan(SIDE, 2, extents, 2, weights[0], 2, least, 0, square, N));
    check(multipartition_plan(3360, MOST, extents, MOST, weights[0], MOST, least, MOST, plan, N));
    tiles = 1;
    for (int k = 0; k < MOST; k++) {
        tiles *= plan[MULTIPARTITION_CUTS + k];
        position[k] = plan[MULTIPARTITION_CUTS + k] - 1;
    }
    for (uint32_t i = 0; i < PROBES; i++)
        elements[i] = (i + 1) * (extents[0] / PROBES) - 1;
}

static void ask_owner(void)
{
    check(multipartition_owner(plan, N, position, MOST, answer, MULTIPARTITION_OWNER_LENGTH));
}

/* Every processor count of the layout, at the last position. */
static void ask_hypercube_owner(void)
{
    for (uint32_t p = 1, side = 1; p <= PROCESSORS; p *= 4, side *= 2) {
        const uint32_t last[3] = {side - 1, side - 1, side - 1};
        check(multipartition_hypercube_owner(p, last, 3, answer, MULTIPARTITION_HYPERCUBE_OWNER_LENGTH));
    }
}

static void ask_neighbour(void)
{
    check(multipartition_neighbour(plan, N, 3359, MOST, 0, answer, MULTIPARTITION_NEIGHBOUR_LENGTH));
}

static void ask_slab(void)
{
    check(multipartition_slab(plan, N, MOST, position[MOST - 1], answer, MULTIPARTITION_SLAB_LENGTH));
}

static void ask_slab_of(void)
{
    check(multipartition_slab_of(plan, N, MOST, 999999, answer, MULTIPARTITION_SLAB_OF_LENGTH));
}

/* Along every dimension, to its last element. */
static void ask_slabs_of(void)
{
    for (uint32_t k = 1; k <= MOST; k++)
        check(multipartition_slabs_of(plan, N, k, elements, PROBES, slabs, PROBES));
}

/* Every page along every dimension, with captions of several lengths. */
static void ask_pages(const uint32_t *list)
{
    for (uint32_t k = 1; k <= list[MULTIPARTITION_DIMENSIONS]; k++)
        for (uint32_t page = 0; page * MULTIPARTITION_SHEET_LINES < list[MULTIPARTITION_CUTS + k - 1]; page++)
            for (size_t length = 0; length <= sizeof caption; length += sizeof caption / 4)
                check(multipartition_slab_sheet(list, N, k, page, caption, length, sheet, sizeof sheet));
}

static void ask_slab_sheet(void)
{
    ask_pages(plan);
    ask_pages(square);
}

static void ask_tile_number(void)
{
    check(multipartition_tile_number(plan, N, position, MOST, answer, MULTIPARTITION_TILE_LENGTH));
}

static void ask_tile_position(void)
{
    check(multipartition_tile_position(plan, N, (uint32_t)tiles, answer, MOST));
}

static void ask_step(void)
{
    check(multipartition_step(plan, N, position, MOST, MOST, 0, answer, MULTIPARTITION_STEP_LENGTH(MOST)));
}

/* Every step along every dimension, both ways. */
static void ask_timetable(void)
{
    for (uint32_t k = 1; k <= MOST; k++)
        for (uint32_t step = 0; step < swept[MULTIPARTITION_CUTS + k - 1]; step++)
            for (uint32_t up = 0; up < 2; up++)
                check(multipartition_timetable(swept, N, k, up, step, 3359, answer, MULTIPARTITION_TIMETABLE_LENGTH));
}

/* The planner's plan, and by hand with ever more of its dimensions uncut, from the first on and from the last on. Then a plan of two dimensions, in
 * which owners along dimension 1 are consecutive, and by hand one in which they are not. */
static void ask_chains(void)
{
    static uint32_t list[N];
    const size_t p = plan[MULTIPARTITION_PROCESSORS];
    for (int from_last = 0; from_last < 2; from_last++) {
        size_t left = tiles;
        memcpy(list, plan, sizeof list);
        check(multipartition_chains(list, N, heads, p, nexts, left));
        for (int i = 0; i < MOST; i++) {
            uint32_t *cut = list + MULTIPARTITION_CUTS + (from_last ? MOST - 1 - i : i);
            left /= *cut;
            *cut = 1;
            check(multipartition_chains(list, N, heads, p, nexts, left));
        }
    }
    check(multipartition_chains(square, N, heads, SIDE, nexts, SIDE * SIDE));
    memcpy(list, square, sizeof list);
    list[MULTIPARTITION_MATRIX + MULTIPARTITION_ROW_LENGTH] = 3;
    check(multipartition_chains(list, N, heads, SIDE, nexts, SIDE * SIDE));
}

struct run {
    void (*call)(void);
    unsigned char *low;
    size_t stated;
};

/* Makes the call where only the stated bytes are left. */
static void *thread(void *argument)
{
    const struct run *run = argument;
    unsigned char here = 0;
    volatile unsigned char used_up[(size_t)(&here - run->low) - run->stated];
    used_up[0] = here;
    run->call();
    return used_up[0] == here ? argument : NULL;
}

static void within(const char *what, size_t stated, void (*call)(void))
{
    const size_t size = stated + THREAD;
    unsigned char *memory = mmap(NULL, GUARD + size, PROT_READ | PROT_WRITE, MAP_PRIVATE | MAP_ANONYMOUS, -1, 0);
    if (memory == MAP_FAILED || mprotect(memory, GUARD, PROT_NONE) != 0)
        abort();
    struct run run = {call, memory + GUARD, stated};
    memset(run.low, UNUSED, size);
    printf("%s: ", what);
    fflush(stdout);
    pthread_attr_t attributes;
    pthread_t id;
    if (pthread_attr_init(&attributes) != 0 || pthread_attr_setstack(&attributes, run.low, size) != 0 ||
        pthread_create(&id, &attributes, thread, &run) != 0 || pthread_join(id, NULL) != 0)
        abort();
    size_t unused = 0;
    while (run.low[unused] == UNUSED)
        unused++;
    const size_t used = stated - unused;
    printf("%zu of %zu bytes\n", used, stated);
    if (used + used / 4 > stated) {
        printf("less than a quarter to spare\n");
        exit(EXIT_FAILURE);
    }
    munmap(memory, GUARD + size);
}

int main(void)
{
    find_too_small();
    plan_one();
    heads = malloc(plan[MULTIPARTITION_PROCESSORS] * sizeof *heads);
    nexts = malloc(tiles * sizeof *nexts);
    if (!heads || !nexts)
        abort();
    within("owner", MULTIPARTITION_QUESTION_STACK, ask_owner);
    within("hypercube owner", MULTIPARTITION_QUESTION_STACK, ask_hypercube_owner);
    within("neighbour", MULTIPARTITION_QUESTION_STACK, ask_neighbour);
    within("slab", MULTIPARTITION_QUESTION_STACK, ask_slab);
    within("slab of", MULTIPARTITION_QUESTION_STACK, ask_slab_of);
    within("slabs of", MULTIPARTITION_QUESTION_STACK, ask_slabs_of);
    within("slab sheet", MULTIPARTITION_QUESTION_STACK, ask_slab_sheet);
    within("tile number", MULTIPARTITION_QUESTION_STACK, ask_tile_number);
    within("tile position", MULTIPARTITION_QUESTION_STACK, ask_tile_position);
    within("step", MULTIPARTITION_QUESTION_STACK, ask_step);
    within("timetable", MULTIPARTITION_TIMETABLE_STACK, ask_timetable);
    within("chains", MULTIPARTITION_CHAINS_STACK, ask_chains);
    within("diagonal", MULTIPARTITION_QUESTION_STACK, plan_all_diagonally);
    within("plan", MULTIPARTITION_PLAN_STACK, plan_all);
    within("smallest refused", MULTIPARTITION_PLAN_STACK, ask_shares);
    return EXIT_SUCCESS;
}
