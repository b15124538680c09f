/* A loader that walks the grid downward while it allocates (document 02, e). The pages of the second chain list may not be touched when the call
 * is made, so that they stay as lent; each is handed out when the call reaches it. The call must reach them from the last to the first, and when
 * it goes on to a page, the tiles of the page above must be visited: their places written, and their owners' heads not above them.
 *
 * The compiler may store the places of neighbouring tiles together, in any order, and their heads after them. So the lowest JOINED tiles of a
 * page are not looked at: four vectors of 16 numbers, the widest that x86-64 has. The last page must hold more places than that. */
#define _DEFAULT_SOURCE
#include <signal.h>
#include <stdint.h>
#include <stdio.h>
#include <stdlib.h>
#include <string.h>
#include <sys/mman.h>
#include <unistd.h>

#include "multipartition.h"

enum { JOINED = 64, LENT = 7, MOST = 5, N = MULTIPARTITION_PLAN_LENGTH };

static uint32_t p;
static size_t tiles, page, places, left; /* bytes and places of a page; pages that are not handed out yet */
static uint32_t *heads, *nexts, *owners, *expected_heads, *expected_nexts;

static void fail(const char *message)
{
    fprintf(stderr, "loader: %s\n", message);
    _exit(EXIT_FAILURE);
}

/* Fails unless the tiles of the page that begins at place `low` are visited and no lower tile is a head, but for JOINED tiles either way. */
static void check_visited(size_t low)
{
    size_t high = low + places < tiles ? low + places : tiles;
    for (size_t i = low + JOINED; i < high; i++) {
        if (nexts[i] != expected_nexts[i])
            fail("a place above is not written yet");
        if (heads[owners[i]] == 0 || heads[owners[i]] > i + 1)
            fail("a head is not written yet");
    }
    for (uint32_t q = 0; q < p; q++)
        if (heads[q] != 0 && heads[q] + JOINED <= low)
            fail("a head is a tile that is not yet visited");
}

/* Hands out the next page down, if that is the one the call has reached. */
static void reached(int number, siginfo_t *about, void *context)
{
    (void)number;
    (void)context;
    const char *start = (const char *)nexts, *at = about->si_addr;
    if (at < start || (size_t)(at - start) / page >= (tiles + places - 1) / places)
        fail("a fault outside the list");
    if (left == 0 || (size_t)(at - start) / page != left - 1)
        fail("a page out of order");
    check_visited(left * places);
    left--;
    if (mprotect((char *)nexts + left * page, page, PROT_READ | PROT_WRITE) != 0)
        fail("mprotect");
}

static uint32_t *numbers(size_t count)
{
    uint32_t *made = calloc(count, sizeof *made);
    if (made == NULL)
        fail("no memory");
    return made;
}

static void load(const uint32_t *plan)
{
    size_t pages = left = (tiles + places - 1) / places;
    nexts = mmap(NULL, pages * page, PROT_READ | PROT_WRITE, MAP_PRIVATE | MAP_ANONYMOUS, -1, 0);
    if (nexts == MAP_FAILED)
        fail("no memory");
    for (size_t i = 0; i < pages * places; i++)
        nexts[i] = LENT;
    if (mprotect(nexts, pages * page, PROT_NONE) != 0)
        fail("mprotect");
    if (multipartition_chains(plan, N, heads, p, nexts, tiles) != MULTIPARTITION_ANSWERED)
        fail("no chains in the loader");
    if (left != 0)
        fail("a page was never reached");
    if (memcmp(heads, expected_heads, p * sizeof *heads) != 0 || memcmp(nexts, expected_nexts, tiles * sizeof *nexts) != 0)
        fail("other chains");
    for (size_t i = tiles; i < pages * places; i++)
        if (nexts[i] != LENT)
            fail("a place past the list is written");
    munmap(nexts, pages * page);
}

typedef uint64_t planner(uint32_t, uint32_t, const uint32_t *, size_t, const uint32_t *, size_t, const uint32_t *, size_t, uint32_t *, size_t);

/* The slabs of dimension 1 have at least so many elements, of 4096. */
static void walk(planner *make, uint32_t processors, uint32_t d, uint32_t thickness)
{
    const uint32_t extents[MOST] = {4096, 4096, 4096, 4096, 4096}, weights[MOST] = {1, 1, 1, 1, 1}, least[MOST] = {thickness, 3, 2, 1, 4};
    uint32_t plan[N];
    if (make(processors, d, extents, d, weights, d, least, d, plan, N) != MULTIPARTITION_ANSWERED)
        fail("no plan");
    p = processors;
    tiles = 1;
    for (uint32_t k = 0; k < d; k++)
        tiles *= plan[MULTIPARTITION_CUTS + k];
    heads = numbers(p);
    expected_heads = numbers(p);
    expected_nexts = numbers(tiles);
    owners = numbers(tiles);
    if (multipartition_chains(plan, N, expected_heads, p, expected_nexts, tiles) != MULTIPARTITION_ANSWERED)
        fail("no chains");
    for (uint32_t q = 0; q < p; q++) {
        heads[q] = LENT;
        for (uint32_t tile = expected_heads[q]; tile != 0; tile = expected_nexts[tile - 1])
            owners[tile - 1] = q;
    }
    load(plan);
    free(heads);
    free(expected_heads);
    free(expected_nexts);
    free(owners);
}

int main(void)
{
    struct sigaction action = {.sa_sigaction = reached, .sa_flags = SA_SIGINFO};
    sigemptyset(&action.sa_mask);
    if (sigaction(SIGSEGV, &action, NULL) != 0 || sigaction(SIGBUS, &action, NULL) != 0)
        fail("sigaction");
    page = (size_t)sysconf(_SC_PAGESIZE);
    places = page / sizeof *nexts;
    /* Along dimension 1 a thousand tiles, tens and about ten; then two, and one where it is uncut. */
    walk(multipartition_plan, 1024, 2, 4);
    walk(multipartition_plan, 4096, 3, 4);
    walk(multipartition_plan, 1000, 4, 4);
    walk(multipartition_plan, 3360, 5, 4);
    walk(multipartition_plan, 997, 2, 4);
    walk(multipartition_diagonal, 997, 2, 4);
    walk(multipartition_diagonal, 961, 3, 4);
    walk(multipartition_plan, 2048, 3, 2048);
    walk(multipartition_plan, 1000, 3, 4096);
    walk(multipartition_plan, 1000, 5, 4096);
    return EXIT_SUCCESS;
}
