/* Every refusal through the link, from C: the number, the place, and that the lent lists keep their contents. Lists are in memory of just their
 * size, so that a tool that watches memory sees a place read or written beside them. */
#include <inttypes.h>
#include <stdio.h>
#include <stdlib.h>
#include <string.h>

#include "multipartition.h"

enum { KEPT = 77 };

static int failures = 0;

/* A list of its own memory with the same number everywhere. */
static uint32_t *filled(size_t length, uint32_t number)
{
    uint32_t *list = malloc(length ? length * sizeof *list : 1);
    if (!list)
        abort();
    for (size_t i = 0; i < length; i++)
        list[i] = number;
    return list;
}

/* A copy of the first places of a list, with KEPT after them. */
static uint32_t *copied(const uint32_t *from, size_t count, size_t length)
{
    uint32_t *list = filled(length, KEPT);
    memcpy(list, from, (count < length ? count : length) * sizeof *list);
    return list;
}

static void expect(const char *what, uint64_t returned, enum multipartition_number number, uint32_t place)
{
    if (multipartition_number_of(returned) == number && multipartition_place_of(returned) == place)
        return;
    printf("%s: returned %d %" PRIu32 ", not %d %" PRIu32 "\n", what, (int)multipartition_number_of(returned),
           multipartition_place_of(returned), (int)number, place);
    failures++;
}

static void expect_kept(const char *what, uint32_t *list, size_t length)
{
    for (size_t i = 0; i < length; i++)
        if (list[i] != KEPT) {
            printf("%s: place %zu of a lent list was written\n", what, i);
            failures++;
        }
    free(list);
}

/* ---- jobs */

typedef uint64_t planning(uint32_t, uint32_t, const uint32_t *, size_t, const uint32_t *, size_t, const uint32_t *, size_t, uint32_t *, size_t);

/* A list of equal numbers but the last. */
struct list {
    size_t length;
    uint32_t number, last;
};

static uint32_t *made(struct list list)
{
    uint32_t *numbers = filled(list.length, list.number);
    if (list.length)
        numbers[list.length - 1] = list.last;
    return numbers;
}

static void thick_job(planning *call, const char *what, uint32_t p, uint32_t d, struct list extent, size_t weights_length, struct list thickness,
                      size_t answer_length, enum multipartition_number number, uint32_t place)
{
    uint32_t *extents = made(extent);
    uint32_t *weights = filled(weights_length, 1);
    uint32_t *least = made(thickness);
    uint32_t *answer = filled(answer_length, KEPT);
    expect(what, call(p, d, extents, extent.length, weights, weights_length, least, thickness.length, answer, answer_length), number, place);
    expect_kept(what, answer, answer_length);
    free(extents);
    free(weights);
    free(least);
}

/* The same without least thicknesses, and with d ones if d is in range. */
static void job(planning *call, const char *what, uint32_t p, uint32_t d, size_t extents_length, uint32_t extent, uint32_t last_extent,
                size_t weights_length, size_t answer_length, enum multipartition_number number, uint32_t place)
{
    const struct list extents = {extents_length, extent, last_extent}, none = {0, 0, 0}, ones = {d, 1, 1};
    thick_job(call, what, p, d, extents, weights_length, none, answer_length, number, place);
    if (2 <= d && d <= 5)
        thick_job(call, what, p, d, extents, weights_length, ones, answer_length, number, place);
}

/* Refusals that all calls with a job have in common. The answer has n places. */
static void jobs(planning *call, size_t n)
{
    job(call, "d too small", 4, 1, 1, 8, 8, 1, n, MULTIPARTITION_BAD_DIMENSIONS, 0);
    job(call, "d too large", 0, 6, 0, 8, 8, 0, n, MULTIPARTITION_BAD_DIMENSIONS, 0);
    job(call, "no processor", 0, 2, 0, 8, 8, 0, n, MULTIPARTITION_BAD_PROCESSORS, 0);
    job(call, "too many processors", 4097, 2, 2, 8, 8, 2, n, MULTIPARTITION_BAD_PROCESSORS, 0);
    job(call, "too few extents", 4, 3, 2, 8, 8, 3, n, MULTIPARTITION_BAD_JOB_LENGTH, 0);
    job(call, "too many weights", 4, 3, 3, 0, 0, 4, n, MULTIPARTITION_BAD_JOB_LENGTH, 0);
    job(call, "first extent 0", 4, 3, 3, 0, 8, 3, n, MULTIPARTITION_BAD_EXTENT, 1);
    job(call, "last extent too large", 4, 3, 3, 8, 1000001, 3, n, MULTIPARTITION_BAD_EXTENT, 3);
    job(call, "extent before cuts", 4, 2, 2, 3, 0, 2, 0, MULTIPARTITION_BAD_EXTENT, 2);
    job(call, "no answer list", 4, 3, 3, 8, 8, 3, 0, MULTIPARTITION_BAD_ANSWER_LENGTH, 0);
    job(call, "answer list too short", 4, 3, 3, 8, 8, 3, n - 1, MULTIPARTITION_BAD_ANSWER_LENGTH, 0);
    job(call, "answer list too long", 4, 3, 3, 8, 8, 3, n + 1, MULTIPARTITION_BAD_ANSWER_LENGTH, 0);
}

/* What least thicknesses are refused for, likewise, each where all later refusals apply too, and each without them. */
static void thicknesses(planning *call, size_t n)
{
    const struct list eights = {3, 8, 8}, ones = {3, 1, 1}, bad_last = {3, 8, 0}, zeros = {3, 0, 0}, zero_last = {3, 1, 0}, zero_first = {3, 0, 1};
    const struct list few = {2, 0, 0}, one = {1, 1, 1}, many = {4, 0, 0}, few_ones = {2, 1, 1}, many_ones = {4, 1, 1};
    const struct list pair = {2, 8, 8}, sixes = {2, 6, 6}, threes = {2, 3, 3}, zero_second = {2, UINT32_MAX, 0}, long_and_thin = {2, 1000000, 1};
    thick_job(call, "d before the thicknesses", 4, 6, zeros, 3, few, 0, MULTIPARTITION_BAD_DIMENSIONS, 0);
    thick_job(call, "d before the thicknesses", 4, 1, one, 1, few, 0, MULTIPARTITION_BAD_DIMENSIONS, 0);
    thick_job(call, "processors before the thicknesses", 0, 3, zeros, 3, few, 0, MULTIPARTITION_BAD_PROCESSORS, 0);
    thick_job(call, "too few thicknesses", 4, 3, zeros, 3, few, 0, MULTIPARTITION_BAD_JOB_LENGTH, 0);
    thick_job(call, "too few thicknesses", 4, 3, eights, 3, few_ones, n, MULTIPARTITION_BAD_JOB_LENGTH, 0);
    thick_job(call, "one thickness", 4, 2, pair, 2, one, n, MULTIPARTITION_BAD_JOB_LENGTH, 0);
    thick_job(call, "too many thicknesses", 4, 3, zeros, 3, many, 0, MULTIPARTITION_BAD_JOB_LENGTH, 0);
    thick_job(call, "too many thicknesses", 4, 3, eights, 3, many_ones, n, MULTIPARTITION_BAD_JOB_LENGTH, 0);
    thick_job(call, "too many thicknesses", 4, 2, pair, 2, ones, n, MULTIPARTITION_BAD_JOB_LENGTH, 0);
    thick_job(call, "extents with their thicknesses", 4, 3, pair, 3, few_ones, n, MULTIPARTITION_BAD_JOB_LENGTH, 0);
    thick_job(call, "extent before thickness", 4, 3, bad_last, 3, zeros, 0, MULTIPARTITION_BAD_EXTENT, 3);
    thick_job(call, "thickness 0", 4, 3, ones, 3, zeros, 0, MULTIPARTITION_BAD_THICKNESS, 1);
    thick_job(call, "first thickness 0", 4, 3, eights, 3, zero_first, n, MULTIPARTITION_BAD_THICKNESS, 1);
    thick_job(call, "last thickness 0", 4, 3, ones, 3, zero_last, 0, MULTIPARTITION_BAD_THICKNESS, 3);
    thick_job(call, "last thickness 0", 4, 3, eights, 3, zero_last, n, MULTIPARTITION_BAD_THICKNESS, 3);
    thick_job(call, "thickness 0 before cuts", 4, 2, pair, 2, zero_second, 0, MULTIPARTITION_BAD_THICKNESS, 2);
    thick_job(call, "just thick enough", 2, 2, sixes, 2, threes, n - 1, MULTIPARTITION_BAD_ANSWER_LENGTH, 0);
    thick_job(call, "as thick as the grid", 1, 2, long_and_thin, 2, long_and_thin, 0, MULTIPARTITION_BAD_ANSWER_LENGTH, 0);
}

/* Jobs without cuts, for the planner and the diagonal layout. The products of cut and thickness that are too large for 32 bits would be 0, 4096 and 8
 * there. */
static void no_cuts(planning *call)
{
    const size_t n = MULTIPARTITION_PLAN_LENGTH;
    const struct list pair = {2, 8, 8}, six_five = {2, 6, 5}, threes = {2, 3, 3}, eights = {3, 8, 8}, wide = {2, 4096, 4096};
    job(call, "no cuts", 4, 2, 2, 3, 8, 2, n, MULTIPARTITION_NO_CUTS, 0);
    job(call, "no cuts before the length", 4, 2, 2, 3, 8, 2, 0, MULTIPARTITION_NO_CUTS, 0);
    thick_job(call, "too thick", 2, 2, six_five, 2, threes, n, MULTIPARTITION_NO_CUTS, 0);
    thick_job(call, "too thick before the length", 2, 2, six_five, 2, threes, 0, MULTIPARTITION_NO_CUTS, 0);
    thick_job(call, "too thick for one cut", 1, 2, pair, 2, (struct list){2, 1, 9}, n, MULTIPARTITION_NO_CUTS, 0);
    thick_job(call, "too thick for one cut", 1, 3, eights, 3, (struct list){3, UINT32_MAX, 1}, n, MULTIPARTITION_NO_CUTS, 0);
    thick_job(call, "a product of 33 bits", 4096, 2, wide, 2, (struct list){2, 1, 1048576}, n, MULTIPARTITION_NO_CUTS, 0);
    thick_job(call, "a product of 33 bits", 4096, 2, wide, 2, (struct list){2, 1048577, 1}, n, MULTIPARTITION_NO_CUTS, 0);
    thick_job(call, "a product of 33 bits", 8, 2, pair, 2, (struct list){2, 536870913, 536870913}, n, MULTIPARTITION_NO_CUTS, 0);
}

/* A job that the planner refuses with 5: the call for the smallest divisor answers in a list of the right length, and refuses others with 9. */
static void share(const char *what, uint32_t p, uint32_t d, struct list extent, struct list thickness)
{
    const size_t n = MULTIPARTITION_SMALLEST_REFUSED_LENGTH, wrong[] = {0, n - 1, n + 1, 2 * n, MULTIPARTITION_PLAN_LENGTH};
    uint32_t *extents = made(extent);
    uint32_t *weights = filled(d, 1);
    uint32_t *least = made(thickness);
    uint32_t *answer = filled(n, KEPT);
    thick_job(multipartition_plan, what, p, d, extent, d, thickness, MULTIPARTITION_PLAN_LENGTH, MULTIPARTITION_NO_CUTS, 0);
    for (size_t i = 0; i < sizeof wrong / sizeof *wrong; i++)
        thick_job(multipartition_smallest_refused, what, p, d, extent, d, thickness, wrong[i], MULTIPARTITION_BAD_ANSWER_LENGTH, 0);
    expect(what, multipartition_smallest_refused(p, d, extents, d, weights, d, least, thickness.length, answer, n), MULTIPARTITION_ANSWERED, 0);
    if (answer[MULTIPARTITION_SMALLEST_REFUSED_FOUND] != 1) {
        printf("%s: nothing to show\n", what);
        failures++;
    }
    free(extents);
    free(weights);
    free(least);
    free(answer);
}

/* No 5 comes back, whatever the least thicknesses are. */
static void shares(void)
{
    const struct list none = {0, 0, 0}, fives = {2, 5, 5}, sixes = {3, 6, 6}, six_five = {2, 6, 5}, threes = {2, 3, 3}, wide = {2, 4096, 4095};
    share("12 on 5 5", 12, 2, fives, none);
    share("12 on 5 5, slabs of 1", 12, 2, fives, (struct list){2, 1, 1});
    share("60 on 6 6 6", 60, 3, sixes, none);
    share("2 on 6 5, slabs of 3", 2, 2, six_five, threes);
    share("4096 on 4096 4095", 4096, 2, wide, none);
    share("no slab is thick enough", 1, 2, fives, (struct list){2, 1, 6});
    share("no slab is thick enough", 4096, 3, sixes, (struct list){3, UINT32_MAX, 1});
}

/* A job of the diagonal layout. */
static void diagonal(const char *what, uint32_t p, uint32_t d, size_t extents_length, uint32_t extent, uint32_t last_extent, size_t plan_length,
                     enum multipartition_number number)
{
    job(multipartition_diagonal, what, p, d, extents_length, extent, last_extent, d, plan_length, number, 0);
}

/* What suits the layout, after 2 and before 3, each where later refusals apply too; and cuts that do not fit where the planner finds others. */
static void diagonals(void)
{
    const size_t n = MULTIPARTITION_PLAN_LENGTH;
    const uint32_t extents[3] = {16, 16, 3}, weights[3] = {1, 1, 1}, least[3] = {1, 1, 2};
    const struct list zeros = {3, 0, 0}, few = {2, 0, 0}, eights = {3, 8, 8}, fives = {3, 1, 5};
    uint32_t plan[MULTIPARTITION_PLAN_LENGTH];
    diagonal("d too large before suited", 5, 6, 0, 0, 0, 0, MULTIPARTITION_BAD_DIMENSIONS);
    diagonal("no processor before suited", 0, 4, 0, 0, 0, 0, MULTIPARTITION_BAD_PROCESSORS);
    diagonal("too many processors before suited", 4097, 3, 0, 0, 0, 0, MULTIPARTITION_BAD_PROCESSORS);
    diagonal("four dimensions", 16, 4, 0, 0, 0, 0, MULTIPARTITION_UNSUITED);
    diagonal("four dimensions", 8, 4, 4, 8, 8, n, MULTIPARTITION_UNSUITED);
    diagonal("five dimensions", 1, 5, 5, 1, 1, n, MULTIPARTITION_UNSUITED);
    diagonal("no square before the lists", 5, 3, 2, 0, 0, 0, MULTIPARTITION_UNSUITED);
    diagonal("no square before an extent", 4095, 3, 3, 64, 0, 0, MULTIPARTITION_UNSUITED);
    diagonal("no square", 6, 3, 3, 9, 9, n, MULTIPARTITION_UNSUITED);
    diagonal("a cut above its extent", 4096, 3, 3, 64, 63, n, MULTIPARTITION_NO_CUTS);
    diagonal("a cut above its extent", 4093, 2, 2, 4092, 4093, 0, MULTIPARTITION_NO_CUTS);
    diagonal("a cut above its extent", 16, 3, 3, 16, 3, n, MULTIPARTITION_NO_CUTS);
    thick_job(multipartition_diagonal, "no square before the thicknesses", 6, 3, zeros, 3, few, 0, MULTIPARTITION_UNSUITED, 0);
    thick_job(multipartition_diagonal, "four dimensions before thickness 0", 4, 4, eights, 4, zeros, n, MULTIPARTITION_UNSUITED, 0);
    thick_job(multipartition_diagonal, "too thick for the layout", 4, 3, eights, 3, fives, n, MULTIPARTITION_NO_CUTS, 0);
    expect("cuts of the planner", multipartition_plan(16, 3, extents, 3, weights, 3, least, 3, plan, n), MULTIPARTITION_ANSWERED, 0);
    expect("just the cuts", multipartition_diagonal(9, 3, extents, 3, weights, 3, weights, 3, plan, n), MULTIPARTITION_ANSWERED, 0);
    expect("just too thick", multipartition_diagonal(9, 3, extents, 3, weights, 3, least, 3, plan, n), MULTIPARTITION_NO_CUTS, 0);
}

/* ---- the hypercube layout */

/* A position of so many equal coordinates but one. */
static void hypercube(const char *what, uint32_t p, size_t position_length, uint32_t coordinate, size_t at, uint32_t other, size_t answer_length,
                      enum multipartition_number number)
{
    uint32_t *position = filled(position_length, coordinate);
    uint32_t *answer = filled(answer_length, KEPT);
    if (at < position_length)
        position[at] = other;
    expect(what, multipartition_hypercube_owner(p, position, position_length, answer, answer_length), number, 0);
    expect_kept(what, answer, answer_length);
    free(position);
}

/* Each refusal where all later ones apply too, and each without them. */
static void hypercubes(void)
{
    const size_t a = MULTIPARTITION_HYPERCUBE_OWNER_LENGTH;
    const uint32_t beyond[] = {0, 4097, 16384, UINT32_MAX}, unsuited[] = {2, 3, 8, 9, 32, 36, 1000, 2048, 2304, 4095};
    for (size_t i = 0; i < sizeof beyond / sizeof *beyond; i++) {
        hypercube("processors out of range", beyond[i], 2, 64, 0, 64, 0, MULTIPARTITION_BAD_PROCESSORS);
        hypercube("processors out of range", beyond[i], 3, 0, 0, 0, a, MULTIPARTITION_BAD_PROCESSORS);
    }
    for (size_t i = 0; i < sizeof unsuited / sizeof *unsuited; i++) {
        hypercube("no power of 4", unsuited[i], 2, 64, 0, 64, 0, MULTIPARTITION_UNSUITED);
        hypercube("no power of 4", unsuited[i], 3, 0, 0, 0, a, MULTIPARTITION_UNSUITED);
    }
    for (uint32_t p = 1, side = 1; p <= 4096; p *= 4, side *= 2) {
        hypercube("no position", p, 0, 0, 0, 0, 0, MULTIPARTITION_OUT_OF_RANGE);
        hypercube("two coordinates", p, 2, 0, 0, 0, a, MULTIPARTITION_OUT_OF_RANGE);
        hypercube("four coordinates", p, 4, 0, 0, 0, a, MULTIPARTITION_OUT_OF_RANGE);
        for (size_t k = 0; k < 3; k++) {
            hypercube("coordinate too large", p, 3, 0, k, side, 0, MULTIPARTITION_OUT_OF_RANGE);
            hypercube("coordinate too large", p, 3, side - 1, k, UINT32_MAX, a, MULTIPARTITION_OUT_OF_RANGE);
        }
        hypercube("no answer list", p, 3, side - 1, 0, 0, 0, MULTIPARTITION_BAD_ANSWER_LENGTH);
        hypercube("answer list too long", p, 3, side - 1, 0, 0, a + 1, MULTIPARTITION_BAD_ANSWER_LENGTH);
    }
}

/* ---- probe lines */

/* A probe line that is refused, or has no elements: nothing is written. */
static void probe_line(const char *what, const uint32_t *plan, size_t length, uint32_t dimension, const uint32_t *elements, size_t elements_length,
                       size_t slabs_length, enum multipartition_number number, uint32_t place)
{
    uint32_t *list = copied(plan, MULTIPARTITION_PLAN_LENGTH, length);
    uint32_t *line = copied(elements, elements_length, elements_length);
    uint32_t *slabs = filled(slabs_length, KEPT);
    expect(what, multipartition_slabs_of(list, length, dimension, line, elements_length, slabs, slabs_length), number, place);
    if (memcmp(line, elements, elements_length * sizeof *line) != 0) {
        printf("%s: an element was written\n", what);
        failures++;
    }
    expect_kept(what, slabs, slabs_length);
    free(line);
    free(list);
}

/* Refusals of a probe line, each where all later ones apply too, and each without them. The plan has 8 elements in 2 slabs in each dimension. */
static void probe_lines(const uint32_t *plan)
{
    const size_t n = MULTIPARTITION_PLAN_LENGTH;
    const uint32_t rising[5] = {1, 2, 2, 3, 7}, falling[5] = {1, 2, 2, 1, 0}, beyond[5] = {5, 3, 2, 1, 8}, far[5] = {UINT32_MAX, 7, 7, 6, 0};
    const uint32_t pair[2] = {7, 6};
    uint32_t *other = copied(plan, n, n);
    other[MULTIPARTITION_KIND] = 2;
    probe_line("probes of a plan of another kind", other, n, 4, beyond, 5, 4, MULTIPARTITION_BAD_PLAN, 0);
    probe_line("probes of a plan of another kind", other, n, 3, rising, 5, 5, MULTIPARTITION_BAD_PLAN, 0);
    probe_line("no probes of a plan of another kind", other, n, 3, rising, 0, 0, MULTIPARTITION_BAD_PLAN, 0);
    free(other);
    probe_line("probes of a plan list without a kind", plan, 49, 4, beyond, 5, 4, MULTIPARTITION_BAD_PLAN, 0);
    probe_line("probes of a plan list without thicknesses", plan, 50, 4, beyond, 5, 4, MULTIPARTITION_BAD_PLAN, 0);
    probe_line("probes of a plan list too long", plan, n + 1, 3, rising, 5, 5, MULTIPARTITION_BAD_PLAN, 0);
    probe_line("probes along dimension 0", plan, n, 0, beyond, 5, 4, MULTIPARTITION_BAD_DIMENSION, 0);
    probe_line("probes along dimension 4", plan, n, 4, falling, 5, 5, MULTIPARTITION_BAD_DIMENSION, 0);
    probe_line("no probes along dimension 4", plan, n, 4, rising, 0, 0, MULTIPARTITION_BAD_DIMENSION, 0);
    for (uint32_t k = 1; k <= 3; k++) {
        probe_line("last probe out of range", plan, n, k, beyond, 5, 4, MULTIPARTITION_OUT_OF_RANGE, 0);
        probe_line("last probe out of range", plan, n, k, beyond, 5, 6, MULTIPARTITION_OUT_OF_RANGE, 0);
        probe_line("first probe out of range", plan, n, k, far, 5, 0, MULTIPARTITION_OUT_OF_RANGE, 0);
        probe_line("one probe, out of range", plan, n, k, far, 1, 1, MULTIPARTITION_OUT_OF_RANGE, 0);
        probe_line("too few places for a line that falls", plan, n, k, falling, 5, 4, MULTIPARTITION_BAD_ANSWER_LENGTH, 0);
        probe_line("too few places for a line that rises", plan, n, k, rising, 5, 4, MULTIPARTITION_BAD_ANSWER_LENGTH, 0);
        probe_line("no place for one probe", plan, n, k, rising, 1, 0, MULTIPARTITION_BAD_ANSWER_LENGTH, 0);
        probe_line("the fourth probe falls", plan, n, k, falling, 5, 5, MULTIPARTITION_NOT_RISING, 4);
        probe_line("the fourth probe falls", plan, n, k, falling, 5, 9, MULTIPARTITION_NOT_RISING, 4);
        probe_line("the second probe falls", plan, n, k, beyond, 4, 4, MULTIPARTITION_NOT_RISING, 2);
        probe_line("the last probe falls", plan, n, k, pair, 2, 2, MULTIPARTITION_NOT_RISING, 2);
        probe_line("no probes, and nothing written", plan, n, k, rising, 0, 3, MULTIPARTITION_ANSWERED, 0);
        probe_line("no probes and no places", plan, n, k, rising, 0, 0, MULTIPARTITION_ANSWERED, 0);
    }
}

/* Slabs go to the front of the list, and what stands behind them is kept. */
static void front_only(const uint32_t *plan)
{
    const uint32_t elements[5] = {1, 3, 4, 4, 7}, in_slabs[5] = {0, 0, 1, 1, 1};
    for (size_t count = 0; count <= 5; count++) {
        uint32_t *line = copied(elements, count, count);
        uint32_t *slabs = filled(8, KEPT);
        expect("a probe line", multipartition_slabs_of(plan, MULTIPARTITION_PLAN_LENGTH, 2, line, count, slabs, 8), MULTIPARTITION_ANSWERED, 0);
        for (size_t i = 0; i < count; i++) {
            if (slabs[i] != in_slabs[i]) {
                printf("a probe line: slab %zu is %" PRIu32 ", not %" PRIu32 "\n", i, slabs[i], in_slabs[i]);
                failures++;
            }
            slabs[i] = KEPT;
        }
        expect_kept("behind a probe line", slabs, 8);
        free(line);
    }
}

/* ---- slab sheets */

static uint8_t *filled_bytes(size_t length)
{
    uint8_t *list = malloc(length ? length : 1);
    if (!list)
        abort();
    memset(list, KEPT, length);
    return list;
}

static void expect_bytes_kept(const char *what, uint8_t *list, size_t length)
{
    for (size_t i = 0; i < length; i++)
        if (list[i] != KEPT) {
            printf("%s: byte %zu of a lent list was written\n", what, i);
            failures++;
        }
    free(list);
}

/* A page that is refused: neither it nor the caption is written. */
static void sheet(const char *what, const uint32_t *plan, size_t length, uint32_t dimension, uint32_t page, size_t sheet_length,
                  enum multipartition_number number)
{
    const size_t captions[] = {0, 1, 38, 100};
    for (size_t i = 0; i < sizeof captions / sizeof *captions; i++) {
        uint32_t *list = copied(plan, MULTIPARTITION_PLAN_LENGTH, length);
        uint8_t *caption = filled_bytes(captions[i]);
        uint8_t *lent = filled_bytes(sheet_length);
        expect(what, multipartition_slab_sheet(list, length, dimension, page, caption, captions[i], lent, sheet_length), number, 0);
        expect_bytes_kept(what, caption, captions[i]);
        expect_bytes_kept(what, lent, sheet_length);
        free(list);
    }
}

/* Refusals of a page, each where all later ones apply too, and each without them. The plan has three dimensions of 2 slabs. */
static void sheets(const uint32_t *plan)
{
    const size_t n = MULTIPARTITION_PLAN_LENGTH, a = MULTIPARTITION_SHEET_LENGTH, wrong[] = {0, 1, a - 1, a + 1, 2 * a};
    uint32_t *other = copied(plan, n, n);
    other[MULTIPARTITION_KIND] = 2;
    sheet("a page of a plan of another kind", other, n, 4, 1, 0, MULTIPARTITION_BAD_PLAN);
    sheet("a page of a plan of another kind", other, n, 1, 0, a, MULTIPARTITION_BAD_PLAN);
    free(other);
    sheet("a page of a plan list without a kind", plan, 49, 4, 1, 0, MULTIPARTITION_BAD_PLAN);
    sheet("a page of a plan list without thicknesses", plan, 50, 1, 0, a, MULTIPARTITION_BAD_PLAN);
    sheet("a page of a plan list too short", plan, n - 1, 1, 0, a, MULTIPARTITION_BAD_PLAN);
    sheet("a page of a plan list too long", plan, n + 1, 1, 0, a, MULTIPARTITION_BAD_PLAN);
    sheet("a page along dimension 0", plan, n, 0, 1, 0, MULTIPARTITION_BAD_DIMENSION);
    sheet("a page along dimension 0", plan, n, 0, 0, a, MULTIPARTITION_BAD_DIMENSION);
    sheet("a page along dimension 4", plan, n, 4, 1, 0, MULTIPARTITION_BAD_DIMENSION);
    sheet("a page along dimension 4", plan, n, 4, 0, a, MULTIPARTITION_BAD_DIMENSION);
    sheet("a page along no dimension", plan, n, UINT32_MAX, UINT32_MAX, 0, MULTIPARTITION_BAD_DIMENSION);
    for (uint32_t k = 1; k <= 3; k++) {
        sheet("a page past the last", plan, n, k, 1, 0, MULTIPARTITION_OUT_OF_RANGE);
        sheet("a page past the last", plan, n, k, 1, a, MULTIPARTITION_OUT_OF_RANGE);
        sheet("a page far past the last", plan, n, k, UINT32_MAX, 0, MULTIPARTITION_OUT_OF_RANGE);
        sheet("fifty times the page has 38 bits, the lower 32 of them 0", plan, n, k, 2147483648, a, MULTIPARTITION_OUT_OF_RANGE);
        for (size_t i = 0; i < sizeof wrong / sizeof *wrong; i++)
            sheet("a page of another length", plan, n, k, 0, wrong[i], MULTIPARTITION_BAD_ANSWER_LENGTH);
    }
}

/* The last page and the one past it, with as many slabs as fill a page, and one less and one more. */
static void last_pages(void)
{
    const size_t n = MULTIPARTITION_PLAN_LENGTH, a = MULTIPARTITION_SHEET_LENGTH;
    const uint32_t extents[2] = {1000, 1000}, weights[2] = {1, 1}, slabs[] = {1, 49, 50, 51, 100, 101}, last[] = {0, 0, 0, 1, 1, 2};
    const uint8_t caption[3] = {0, 65, 255};
    for (size_t i = 0; i < sizeof slabs / sizeof *slabs; i++) {
        uint32_t plan[MULTIPARTITION_PLAN_LENGTH];
        uint8_t *lent = filled_bytes(a);
        expect("slabs for pages", multipartition_plan(slabs[i], 2, extents, 2, weights, 2, weights, 2, plan, n), MULTIPARTITION_ANSWERED, 0);
        expect("the last page", multipartition_slab_sheet(plan, n, 1, last[i], caption, sizeof caption, lent, a), MULTIPARTITION_ANSWERED, 0);
        free(lent);
        sheet("the last page, too short", plan, n, 1, last[i], a - 1, MULTIPARTITION_BAD_ANSWER_LENGTH);
        sheet("the page past the last", plan, n, 1, last[i] + 1, a, MULTIPARTITION_OUT_OF_RANGE);
        sheet("the page past the last", plan, n, 2, last[i] + 1, 0, MULTIPARTITION_OUT_OF_RANGE);
        sheet("fifty times the page is 4 more than 2 to the power 32", plan, n, 2, 85899346, a, MULTIPARTITION_OUT_OF_RANGE);
    }
}

/* ---- questions */

/* A question: the numbers, the length of the position, and that of the answer lists. The slab is also the step of a sweep. */
struct question {
    uint32_t processor, dimension, slab, element, tile, coordinate;
    size_t position, answer;
};

/* The questions about a plan list are refused with these numbers: those without a dimension, and those with one. */
static void questions(const char *what, const uint32_t *plan, size_t length, struct question q, enum multipartition_number without,
                      enum multipartition_number with)
{
    uint32_t *list = copied(plan, MULTIPARTITION_PLAN_LENGTH, length);
    uint32_t *position = filled(q.position, q.coordinate);
    uint32_t *answer = filled(q.answer, KEPT);
    expect(what, multipartition_owner(list, length, position, q.position, answer, q.answer), without, 0);
    expect(what, multipartition_tile_number(list, length, position, q.position, answer, q.answer), without, 0);
    expect(what, multipartition_tile_position(list, length, q.tile, answer, q.answer), without, 0);
    expect(what, multipartition_slab(list, length, q.dimension, q.slab, answer, q.answer), with, 0);
    expect(what, multipartition_slab_of(list, length, q.dimension, q.element, answer, q.answer), with, 0);
    for (uint32_t up = 0; up < 2; up++) {
        expect(what, multipartition_neighbour(list, length, q.processor, q.dimension, up, answer, q.answer), with, 0);
        expect(what, multipartition_step(list, length, position, q.position, q.dimension, up, answer, q.answer), with, 0);
        expect(what, multipartition_timetable(list, length, q.dimension, up, q.slab, q.processor, answer, q.answer), with, 0);
    }
    expect_kept(what, answer, q.answer);
    free(position);
    free(list);
}

/* A question about a sweep, up and down. */
static void visit(const char *what, const uint32_t *plan, size_t length, uint32_t dimension, uint32_t step, uint32_t processor, size_t answer_length,
                  enum multipartition_number number)
{
    uint32_t *list = copied(plan, MULTIPARTITION_PLAN_LENGTH, length);
    uint32_t *answer = filled(answer_length, KEPT);
    expect(what, multipartition_timetable(list, length, dimension, 0, step, processor, answer, answer_length), number, 0);
    expect(what, multipartition_timetable(list, length, dimension, 1, step, processor, answer, answer_length), number, 0);
    expect_kept(what, answer, answer_length);
    free(list);
}

/* Refusals of a sweep, each where all later ones apply too: any two extents of the first plan have a product above 4,294,967,295, and 2 is neither a
 * step nor a processor. The first two extents of the second plan have just that product. */
static void visits(void)
{
    const size_t n = MULTIPARTITION_PLAN_LENGTH, a = MULTIPARTITION_TIMETABLE_LENGTH;
    const uint32_t large[3] = {65536, 65536, 65536}, small[3] = {65535, 65537, 2}, weights[3] = {1, 1, 1};
    uint32_t plan[MULTIPARTITION_PLAN_LENGTH], answer[MULTIPARTITION_TIMETABLE_LENGTH];
    expect("a large job", multipartition_plan(2, 3, large, 3, weights, 3, weights, 3, plan, n), MULTIPARTITION_ANSWERED, 0);
    visit("sweep by a plan list without a kind", plan, 49, 0, 2, 2, 0, MULTIPARTITION_BAD_PLAN);
    visit("sweep by a plan list without thicknesses", plan, 50, 0, 2, 2, 0, MULTIPARTITION_BAD_PLAN);
    plan[MULTIPARTITION_KIND] = 2;
    visit("sweep by a plan of another kind", plan, n, 0, 2, 2, 0, MULTIPARTITION_BAD_PLAN);
    plan[MULTIPARTITION_KIND] = MULTIPARTITION_KIND_PLANNED;
    plan[MULTIPARTITION_MODULI] = 0;
    visit("sweep by a plan out of shape", plan, n, 0, 2, 2, 0, MULTIPARTITION_BAD_PLAN);
    plan[MULTIPARTITION_MODULI] = 1;
    plan[MULTIPARTITION_LEAST] = 65537;
    visit("sweep by a plan too thin", plan, n, 0, 2, 2, 0, MULTIPARTITION_BAD_PLAN);
    plan[MULTIPARTITION_LEAST] = 0;
    visit("sweep by a plan of thickness 0", plan, n, 0, 2, 2, 0, MULTIPARTITION_BAD_PLAN);
    plan[MULTIPARTITION_LEAST] = 1;
    visit("sweep along dimension 0", plan, n, 0, 2, 2, 0, MULTIPARTITION_BAD_DIMENSION);
    visit("sweep along dimension 4", plan, n, 4, 2, 2, 0, MULTIPARTITION_BAD_DIMENSION);
    for (uint32_t k = 1; k <= 3; k++) {
        visit("other extents too large", plan, n, k, UINT32_MAX, UINT32_MAX, 0, MULTIPARTITION_OTHER_EXTENTS);
        visit("other extents too large", plan, n, k, 0, 0, a, MULTIPARTITION_OTHER_EXTENTS);
    }

    expect("a smaller job", multipartition_plan(2, 3, small, 3, weights, 3, weights, 0, plan, n), MULTIPARTITION_ANSWERED, 0);
    visit("sweep beyond the last step", plan, n, 3, 2, 0, 0, MULTIPARTITION_OUT_OF_RANGE);
    visit("sweep beyond the last step", plan, n, 3, UINT32_MAX, 1, a, MULTIPARTITION_OUT_OF_RANGE);
    visit("sweep of processor 2", plan, n, 3, 0, 2, 0, MULTIPARTITION_OUT_OF_RANGE);
    visit("sweep of processor 2", plan, n, 3, 0, 2, a, MULTIPARTITION_OUT_OF_RANGE);
    visit("sweep without an answer list", plan, n, 3, 1, 1, 0, MULTIPARTITION_BAD_ANSWER_LENGTH);
    visit("sweep with a short answer list", plan, n, 3, 1, 1, a - 1, MULTIPARTITION_BAD_ANSWER_LENGTH);
    visit("sweep with a long answer list", plan, n, 3, 1, 1, a + 1, MULTIPARTITION_BAD_ANSWER_LENGTH);
    expect("a sweep", multipartition_timetable(plan, n, 3, 1, 1, 1, answer, a), MULTIPARTITION_ANSWERED, 0);
    plan[MULTIPARTITION_EXTENTS] = 65536;
    visit("other extents just too large", plan, n, 3, 1, 1, a, MULTIPARTITION_OTHER_EXTENTS);
}

static void chain_lists(const char *what, const uint32_t *plan, size_t length, size_t heads_length, size_t nexts_length,
                        enum multipartition_number number)
{
    uint32_t *list = copied(plan, MULTIPARTITION_PLAN_LENGTH, length);
    uint32_t *heads = filled(heads_length, KEPT);
    uint32_t *nexts = filled(nexts_length, KEPT);
    expect(what, multipartition_chains(list, length, heads, heads_length, nexts, nexts_length), number, 0);
    expect_kept(what, heads, heads_length);
    expect_kept(what, nexts, nexts_length);
    free(list);
}

/* One number of a plan in shape is changed. */
static void out_of_shape(const uint32_t *plan, size_t place, uint32_t number)
{
    const struct question good = {3, 3, 1, 7, 8, 1, 3, 2};
    const uint32_t first_two[2] = {0, 1};
    uint32_t *changed = copied(plan, MULTIPARTITION_PLAN_LENGTH, MULTIPARTITION_PLAN_LENGTH);
    changed[place] = number;
    questions("out of shape", changed, MULTIPARTITION_PLAN_LENGTH, good, MULTIPARTITION_BAD_PLAN, MULTIPARTITION_BAD_PLAN);
    probe_line("out of shape", changed, MULTIPARTITION_PLAN_LENGTH, 1, first_two, 2, 2, MULTIPARTITION_BAD_PLAN, 0);
    sheet("out of shape", changed, MULTIPARTITION_PLAN_LENGTH, 1, 0, MULTIPARTITION_SHEET_LENGTH, MULTIPARTITION_BAD_PLAN);
    chain_lists("out of shape", changed, MULTIPARTITION_PLAN_LENGTH, 4, 8, MULTIPARTITION_BAD_PLAN);
    free(changed);
}

/* Lists of other lengths than a plan's, and lists with a number that is out of shape. */
static void plan_lists(const uint32_t *plan, const uint32_t *diagonal_plan)
{
    const size_t n = MULTIPARTITION_PLAN_LENGTH;
    const struct question good = {3, 3, 1, 7, 8, 1, 3, 2};
    questions("plan list empty", plan, 0, good, MULTIPARTITION_BAD_PLAN, MULTIPARTITION_BAD_PLAN);
    questions("plan list without a kind", plan, 49, good, MULTIPARTITION_BAD_PLAN, MULTIPARTITION_BAD_PLAN);
    questions("diagonal plan list without a kind", diagonal_plan, 49, good, MULTIPARTITION_BAD_PLAN, MULTIPARTITION_BAD_PLAN);
    questions("plan list without thicknesses", plan, 50, good, MULTIPARTITION_BAD_PLAN, MULTIPARTITION_BAD_PLAN);
    questions("diagonal plan list without thicknesses", diagonal_plan, 50, good, MULTIPARTITION_BAD_PLAN, MULTIPARTITION_BAD_PLAN);
    questions("plan list too short", plan, n - 1, good, MULTIPARTITION_BAD_PLAN, MULTIPARTITION_BAD_PLAN);
    questions("plan list too long", plan, n + 1, good, MULTIPARTITION_BAD_PLAN, MULTIPARTITION_BAD_PLAN);
    out_of_shape(plan, MULTIPARTITION_DIMENSIONS, 6);
    out_of_shape(plan, MULTIPARTITION_PROCESSORS, 0);
    out_of_shape(plan, MULTIPARTITION_EXTENTS + 2, 1000001);
    out_of_shape(plan, MULTIPARTITION_CUTS + 1, 9);
    out_of_shape(plan, MULTIPARTITION_MODULI, 0);
    out_of_shape(plan, MULTIPARTITION_MODULI + 2, 4);
    out_of_shape(plan, MULTIPARTITION_MATRIX + 2 * MULTIPARTITION_ROW_LENGTH + 2, 2);
    out_of_shape(plan, MULTIPARTITION_KIND, 2);
    out_of_shape(plan, MULTIPARTITION_KIND, UINT32_MAX);
    out_of_shape(diagonal_plan, MULTIPARTITION_KIND, 2);
    out_of_shape(diagonal_plan, MULTIPARTITION_MODULI + 1, 1);
}

/* Lists whose thicknesses are out of shape. */
static void too_thick(const uint32_t *plan, const uint32_t *diagonal_plan)
{
    for (size_t k = 0; k < 3; k++) {
        out_of_shape(plan, MULTIPARTITION_LEAST + k, 0);
        out_of_shape(plan, MULTIPARTITION_LEAST + k, 5);
        out_of_shape(plan, MULTIPARTITION_LEAST + k, 2147483648);
        out_of_shape(plan, MULTIPARTITION_LEAST + k, 2147483649);
        out_of_shape(plan, MULTIPARTITION_LEAST + k, UINT32_MAX);
        out_of_shape(diagonal_plan, MULTIPARTITION_LEAST + k, 0);
        out_of_shape(diagonal_plan, MULTIPARTITION_LEAST + k, 5);
    }
    out_of_shape(plan, MULTIPARTITION_EXTENTS, 7);
    out_of_shape(plan, MULTIPARTITION_CUTS, 3);
}

/* Questions out of range, and answer lists of other lengths. */
static void out_of_range(const uint32_t *plan)
{
    const size_t n = MULTIPARTITION_PLAN_LENGTH;
    const struct question no_dimension = {4, 0, 2, 8, 0, 2, 3, 0};
    const struct question high_dimension = {4, 4, 2, 8, 9, 1, 2, 0};
    const struct question above = {4, 1, 2, 8, 9, UINT32_MAX, 3, 0};
    const struct question long_position = {UINT32_MAX, 3, UINT32_MAX, UINT32_MAX, UINT32_MAX, 0, 4, 0};
    const struct question no_answer_list = {3, 3, 1, 7, 8, 1, 3, 0};
    const struct question long_answer_list = {3, 3, 1, 7, 8, 1, 3, 5};
    questions("dimension 0", plan, n, no_dimension, MULTIPARTITION_OUT_OF_RANGE, MULTIPARTITION_BAD_DIMENSION);
    questions("dimension 4", plan, n, high_dimension, MULTIPARTITION_OUT_OF_RANGE, MULTIPARTITION_BAD_DIMENSION);
    questions("out of range", plan, n, above, MULTIPARTITION_OUT_OF_RANGE, MULTIPARTITION_OUT_OF_RANGE);
    questions("position too long", plan, n, long_position, MULTIPARTITION_OUT_OF_RANGE, MULTIPARTITION_OUT_OF_RANGE);
    questions("no answer list", plan, n, no_answer_list, MULTIPARTITION_BAD_ANSWER_LENGTH, MULTIPARTITION_BAD_ANSWER_LENGTH);
    questions("answer list too long", plan, n, long_answer_list, MULTIPARTITION_BAD_ANSWER_LENGTH, MULTIPARTITION_BAD_ANSWER_LENGTH);
}

/* In shape with any thickness that fits, and whatever stands past the dimensions. */
static void thick_enough(uint32_t *plan)
{
    const size_t n = MULTIPARTITION_PLAN_LENGTH;
    const struct question no_answer_list = {3, 3, 1, 7, 8, 1, 3, 0};
    for (uint32_t thickness = 1; thickness <= 4; thickness++) {
        plan[MULTIPARTITION_LEAST] = thickness;
        plan[MULTIPARTITION_LEAST + 3] = UINT32_MAX * (thickness % 2);
        questions("thick enough", plan, n, no_answer_list, MULTIPARTITION_BAD_ANSWER_LENGTH, MULTIPARTITION_BAD_ANSWER_LENGTH);
        chain_lists("thick enough", plan, n, 4, 0, MULTIPARTITION_BAD_ANSWER_LENGTH);
    }
}

int main(void)
{
    const size_t n = MULTIPARTITION_PLAN_LENGTH;
    const uint32_t extents[3] = {8, 8, 8};
    const uint32_t weights[3] = {1, 1, 1};
    const uint32_t least[3] = {4, 1, 2};
    uint32_t plan[MULTIPARTITION_PLAN_LENGTH], diagonal_plan[MULTIPARTITION_PLAN_LENGTH];
    jobs(multipartition_plan, n);
    jobs(multipartition_diagonal, n);
    jobs(multipartition_smallest_refused, MULTIPARTITION_SMALLEST_REFUSED_LENGTH);
    thicknesses(multipartition_plan, n);
    thicknesses(multipartition_diagonal, n);
    thicknesses(multipartition_smallest_refused, MULTIPARTITION_SMALLEST_REFUSED_LENGTH);
    no_cuts(multipartition_plan);
    no_cuts(multipartition_diagonal);
    shares();
    diagonals();
    hypercubes();
    visits();
    expect("a job", multipartition_plan(4, 3, extents, 3, weights, 3, least, 3, plan, n), MULTIPARTITION_ANSWERED, 0);
    expect("a job", multipartition_diagonal(4, 3, extents, 3, weights, 3, least, 0, diagonal_plan, n), MULTIPARTITION_ANSWERED, 0);
    plan_lists(plan, diagonal_plan);
    too_thick(plan, diagonal_plan);
    out_of_range(plan);
    probe_lines(plan);
    probe_lines(diagonal_plan);
    front_only(plan);
    front_only(diagonal_plan);
    sheets(plan);
    sheets(diagonal_plan);
    last_pages();
    thick_enough(plan);
    chain_lists("plan list without a kind", plan, 49, 4, 8, MULTIPARTITION_BAD_PLAN);
    chain_lists("plan list without thicknesses", plan, 50, 4, 8, MULTIPARTITION_BAD_PLAN);
    chain_lists("too few heads", plan, n, 3, 8, MULTIPARTITION_BAD_ANSWER_LENGTH);
    chain_lists("too many nexts", plan, n, 4, 9, MULTIPARTITION_BAD_ANSWER_LENGTH);

    if (failures == 0)
        printf("every refusal is as stated\n");
    return failures == 0 ? EXIT_SUCCESS : EXIT_FAILURE;
}
