/* A solver that sweeps a grid of 9 by 9 by 9 elements on 8 processors. Its stencil reads two elements past a tile's edge, so that no slab may be
 * thinner. It plans the job, looks at who owns the tiles of one slab, asks to whom a processor hands its results when the sweep along dimension 1
 * goes on to the next slab, goes through that processor's tiles, and prints the timetable of the sweep: what each processor receives, works on and
 * sends in each step. It has probes along dimension 3, and asks which slab each is in and who works on it. Then it asks for the two older layouts.
 *
 *     ./build-link
 *     cc -Iinclude examples/sweep.c target/staticlib/libsolver_link.a -o target/sweep && target/sweep
 */
#include <inttypes.h>
#include <stdio.h>
#include <stdlib.h>

#include "multipartition.h"

enum { D = 3, DIMENSION = 1, SLAB = 1, PROCESSOR = 5, STENCIL = 2 };

/* Goes on only where the call was not refused. */
static void check(uint64_t returned)
{
    if (returned != MULTIPARTITION_ANSWERED) {
        printf("refused %d %" PRIu32 "\n", (int)multipartition_number_of(returned), multipartition_place_of(returned));
        exit(EXIT_FAILURE);
    }
}

/* Who owns the tiles of a slab of dimension 1: a row for each slab of dimension 2. */
static void print_owners(const uint32_t *plan, uint32_t slab)
{
    const uint32_t *cuts = plan + MULTIPARTITION_CUTS;
    for (uint32_t j = 0; j < cuts[1]; j++) {
        for (uint32_t k = 0; k < cuts[2]; k++) {
            const uint32_t position[D] = {slab, j, k};
            uint32_t owner[MULTIPARTITION_OWNER_LENGTH];
            check(multipartition_owner(plan, MULTIPARTITION_PLAN_LENGTH, position, D, owner, MULTIPARTITION_OWNER_LENGTH));
            printf(" %" PRIu32, owner[MULTIPARTITION_OWNER]);
        }
        printf("\n");
    }
}

/* The processor's tiles, lowest first, and the tile one step up from each. */
static void hand_on(const uint32_t *plan)
{
    const uint32_t *cuts = plan + MULTIPARTITION_CUTS;
    const size_t processors = plan[MULTIPARTITION_PROCESSORS];
    const size_t tiles = (size_t)cuts[0] * cuts[1] * cuts[2];
    uint32_t *heads = malloc(processors * sizeof *heads);
    uint32_t *nexts = malloc(tiles * sizeof *nexts);
    if (!heads || !nexts)
        exit(EXIT_FAILURE);
    check(multipartition_chains(plan, MULTIPARTITION_PLAN_LENGTH, heads, processors, nexts, tiles));
    for (uint32_t tile = heads[PROCESSOR]; tile != 0; tile = nexts[tile - 1]) {
        uint32_t position[D], step[MULTIPARTITION_STEP_LENGTH(D)], above[MULTIPARTITION_TILE_LENGTH];
        check(multipartition_tile_position(plan, MULTIPARTITION_PLAN_LENGTH, tile, position, D));
        check(multipartition_step(plan, MULTIPARTITION_PLAN_LENGTH, position, D, DIMENSION, 1, step, MULTIPARTITION_STEP_LENGTH(D)));
        printf("tile %" PRIu32 " at %" PRIu32 " %" PRIu32 " %" PRIu32, tile, position[0], position[1], position[2]);
        if (step[MULTIPARTITION_STEP_INSIDE]) {
            check(multipartition_tile_number(plan, MULTIPARTITION_PLAN_LENGTH, step + MULTIPARTITION_STEP_POSITION, D, above,
                                             MULTIPARTITION_TILE_LENGTH));
            printf(" hands on to tile %" PRIu32 "\n", above[MULTIPARTITION_TILE]);
        } else
            printf(" is at the edge\n");
    }
    free(heads);
    free(nexts);
}

/* The whole sweep up the dimension. In a solver each processor asks for itself, then receives, works and sends. */
static void sweep_up(const uint32_t *plan)
{
    const uint32_t steps = plan[MULTIPARTITION_CUTS + DIMENSION - 1];
    for (uint32_t step = 0; step < steps; step++)
        for (uint32_t processor = 0; processor < plan[MULTIPARTITION_PROCESSORS]; processor++) {
            uint32_t visit[MULTIPARTITION_TIMETABLE_LENGTH];
            check(multipartition_timetable(plan, MULTIPARTITION_PLAN_LENGTH, DIMENSION, 1, step, processor, visit,
                                           MULTIPARTITION_TIMETABLE_LENGTH));
            printf("step %" PRIu32 " processor %" PRIu32, step, processor);
            if (visit[MULTIPARTITION_TIMETABLE_RECEIVES])
                printf(" receives %" PRIu32 " elements from %" PRIu32 ",", visit[MULTIPARTITION_TIMETABLE_RECEIVE_LENGTH],
                       visit[MULTIPARTITION_TIMETABLE_RECEIVE_FROM]);
            printf(" works on %" PRIu32 " tiles of slab %" PRIu32, visit[MULTIPARTITION_TIMETABLE_TILES], visit[MULTIPARTITION_TIMETABLE_SLAB]);
            if (visit[MULTIPARTITION_TIMETABLE_SENDS])
                printf(", sends %" PRIu32 " elements to %" PRIu32, visit[MULTIPARTITION_TIMETABLE_SEND_LENGTH],
                       visit[MULTIPARTITION_TIMETABLE_SEND_TO]);
            printf("\n");
        }
}

/* Who has each probe of a line along dimension 3, which goes through the tiles at 0 1 in the other dimensions. All slabs are asked for at once. */
static void follow_probes(const uint32_t *plan)
{
    enum { PROBES = 5 };
    const uint32_t elements[PROBES] = {1, 3, 4, 4, 8};
    uint32_t slabs[PROBES];
    check(multipartition_slabs_of(plan, MULTIPARTITION_PLAN_LENGTH, 3, elements, PROBES, slabs, PROBES));
    for (int i = 0; i < PROBES; i++) {
        const uint32_t position[D] = {0, 1, slabs[i]};
        uint32_t owner[MULTIPARTITION_OWNER_LENGTH];
        check(multipartition_owner(plan, MULTIPARTITION_PLAN_LENGTH, position, D, owner, MULTIPARTITION_OWNER_LENGTH));
        printf("the probe at element %" PRIu32 " of dimension 3 is in slab %" PRIu32 ", in a tile of processor %" PRIu32 "\n", elements[i], slabs[i],
               owner[MULTIPARTITION_OWNER]);
    }
}

/* The layouts of older input decks. The diagonal layout of three dimensions needs a square number of processors, so this plan of the grid is for 4;
 * it is asked like any other. The hypercube layout has no plan list. */
static void older_layouts(const uint32_t extents[D], const uint32_t weights[D], const uint32_t least[D])
{
    uint32_t plan[MULTIPARTITION_PLAN_LENGTH], owner[MULTIPARTITION_HYPERCUBE_OWNER_LENGTH];
    const uint32_t position[3] = {3, 0, 2};
    check(multipartition_diagonal(4, D, extents, D, weights, D, least, D, plan, MULTIPARTITION_PLAN_LENGTH));
    for (uint32_t slab = 0; slab < plan[MULTIPARTITION_CUTS]; slab++) {
        printf("in the diagonal layout of 4 processors the tiles of slab %" PRIu32 " of dimension 1 belong to\n", slab);
        print_owners(plan, slab);
    }
    check(multipartition_hypercube_owner(16, position, 3, owner, MULTIPARTITION_HYPERCUBE_OWNER_LENGTH));
    printf("in the hypercube layout of 16 processors the tile at 3 0 2 belongs to %" PRIu32 "\n", owner[MULTIPARTITION_HYPERCUBE_OWNER]);
}

int main(void)
{
    const uint32_t extents[D] = {9, 9, 9};
    const uint32_t weights[D] = {1, 1, 1};
    const uint32_t least[D] = {STENCIL, STENCIL, STENCIL};
    uint32_t plan[MULTIPARTITION_PLAN_LENGTH];
    check(multipartition_plan(8, D, extents, D, weights, D, least, D, plan, MULTIPARTITION_PLAN_LENGTH));
    const uint32_t *cuts = plan + MULTIPARTITION_CUTS;
    printf("%" PRIu32 " processors, %" PRIu32 " by %" PRIu32 " by %" PRIu32 " tiles\n", plan[MULTIPARTITION_PROCESSORS], cuts[0], cuts[1],
           cuts[2]);

    uint32_t elements[MULTIPARTITION_SLAB_LENGTH];
    check(multipartition_slab(plan, MULTIPARTITION_PLAN_LENGTH, DIMENSION, SLAB, elements, MULTIPARTITION_SLAB_LENGTH));
    printf("slab %d of dimension %d has elements %" PRIu32 " to %" PRIu32 "; its tiles belong to\n", SLAB, DIMENSION,
           elements[MULTIPARTITION_SLAB_FIRST], elements[MULTIPARTITION_SLAB_AFTER] - 1);
    print_owners(plan, SLAB);

    uint32_t next[MULTIPARTITION_NEIGHBOUR_LENGTH];
    check(multipartition_neighbour(plan, MULTIPARTITION_PLAN_LENGTH, PROCESSOR, DIMENSION, 1, next, MULTIPARTITION_NEIGHBOUR_LENGTH));
    if (next[MULTIPARTITION_NEIGHBOUR_FOUND])
        printf("one step up dimension %d from processor %d is processor %" PRIu32 "\n", DIMENSION, PROCESSOR, next[MULTIPARTITION_NEIGHBOUR]);
    else
        printf("dimension %d is uncut\n", DIMENSION);
    hand_on(plan);
    sweep_up(plan);
    follow_probes(plan);
    older_layouts(extents, weights, least);
    return EXIT_SUCCESS;
}
