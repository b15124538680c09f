/* Every named place of every list, against figures. Those of the planner's job, the cuts and the halves of the cost all differ; of the moduli and
 * the matrix as many as the formulas allow, and plan_by_hand has others. Lists stand at the beginning of longer ones, whose other numbers agree with
 * none. */
#include <inttypes.h>
#include <stdio.h>
#include <stdlib.h>
#include <string.h>

#include "multipartition.h"

/* Each call once more: a header that declares another type for one does not compile. */
typedef uint64_t planning(uint32_t, uint32_t, const uint32_t *, size_t, const uint32_t *, size_t, const uint32_t *, size_t, uint32_t *, size_t);
planning multipartition_plan, multipartition_smallest_refused, multipartition_diagonal;
uint64_t multipartition_owner(const uint32_t *, size_t, const uint32_t *, size_t, uint32_t *, size_t);
uint64_t multipartition_hypercube_owner(uint32_t, const uint32_t *, size_t, uint32_t *, size_t);
uint64_t multipartition_neighbour(const uint32_t *, size_t, uint32_t, uint32_t, uint32_t, uint32_t *, size_t);
uint64_t multipartition_slab(const uint32_t *, size_t, uint32_t, uint32_t, uint32_t *, size_t);
uint64_t multipartition_slab_of(const uint32_t *, size_t, uint32_t, uint32_t, uint32_t *, size_t);
uint64_t multipartition_slabs_of(const uint32_t *, size_t, uint32_t, const uint32_t *, size_t, uint32_t *, size_t);
uint64_t multipartition_slab_sheet(const uint32_t *, size_t, uint32_t, uint32_t, const uint8_t *, size_t, uint8_t *, size_t);
uint64_t multipartition_tile_number(const uint32_t *, size_t, const uint32_t *, size_t, uint32_t *, size_t);
uint64_t multipartition_tile_position(const uint32_t *, size_t, uint32_t, uint32_t *, size_t);
uint64_t multipartition_step(const uint32_t *, size_t, const uint32_t *, size_t, uint32_t, uint32_t, uint32_t *, size_t);
uint64_t multipartition_timetable(const uint32_t *, size_t, uint32_t, uint32_t, uint32_t, uint32_t, uint32_t *, size_t);
uint64_t multipartition_chains(const uint32_t *, size_t, uint32_t *, size_t, uint32_t *, size_t);
static enum multipartition_number multipartition_number_of(uint64_t);
static uint32_t multipartition_place_of(uint64_t);

enum { D = 5, ROOM = 99, SPARE = 4000000 };

#define EXPECT(found, figure) expect(#found, found, figure)

/* What an empty list points to: it is not read, or a job would be refused for a thickness of 0. */
static const uint32_t nothing[1] = {0};

static int failures = 0;

static void expect(const char *what, uint64_t found, uint64_t figure)
{
    if (found == figure)
        return;
    printf("%s is %" PRIu64 ", not %" PRIu64 "\n", what, found, figure);
    failures++;
}

/* Makes a list ready for an answer. */
static uint32_t *ready(uint32_t list[ROOM])
{
    for (uint32_t i = 0; i < ROOM; i++)
        list[i] = SPARE + i;
    return list;
}

static void expect_five(const char *what, const uint32_t *found, const uint32_t figures[D])
{
    for (int k = 0; k < D; k++)
        expect(what, found[k], figures[k]);
}

/* A job and its plan. */
struct figures {
    uint32_t p, d, extents[D], weights[D], cuts[D], cost_low, cost_high, moduli[D], matrix[D][D], kind, least[D];
};

static const struct figures planned = {
    3360, D, {101, 67, 41, 999983, 211}, {3569424485, 1132923280, 2664946055, 1861655, 1862693460}, {4, 14, 6, 420, 10}, 470706107, 13,
    {1, 2, 2, 84, 10}, {{0, 0, 0, 0, 0}, {1, 1, 0, 0, 0}, {0, 1, 1, 0, 0}, {83, 12, 70, 1, 0}, {1, 8, 3, 9, 1}}, 0,
    {25, 3, 2, 2380, 21}};
static const struct figures diagonal_of_three = {
    1369, 3, {101, 67, 41}, {3569424485, 1132923280, 2664946055}, {37, 37, 37}, 3229572464, 61, {1, 37, 37}, {{0}, {1, 0, 36}, {0, 1, 36}}, 1,
    {2, 1, 1}};
static const struct figures diagonal_of_two = {
    4093, 2, {999983, 4211}, {3569424485, 1132923280}, {4093, 4093}, 553568300, 4480, {1, 4093}, {{0}, {1, 4092}}, 1, {244, 1}};

static void plan_places(uint32_t plan[ROOM], planning *call, const struct figures *job)
{
    const uint32_t d = job->d;
    EXPECT(call(job->p, d, job->extents, d, job->weights, d, job->least, d, ready(plan), MULTIPARTITION_PLAN_LENGTH), MULTIPARTITION_ANSWERED);
    EXPECT(plan[MULTIPARTITION_DIMENSIONS], d);
    EXPECT(plan[MULTIPARTITION_PROCESSORS], job->p);
    expect_five("an extent", plan + MULTIPARTITION_EXTENTS, job->extents);
    expect_five("a weight", plan + MULTIPARTITION_WEIGHTS, job->weights);
    expect_five("a cut", plan + MULTIPARTITION_CUTS, job->cuts);
    EXPECT(plan[MULTIPARTITION_COST_LOW], job->cost_low);
    EXPECT(plan[MULTIPARTITION_COST_HIGH], job->cost_high);
    expect_five("a modulus", plan + MULTIPARTITION_MODULI, job->moduli);
    for (int i = 0; i < D; i++)
        expect_five("a matrix entry", plan + MULTIPARTITION_MATRIX + i * MULTIPARTITION_ROW_LENGTH, job->matrix[i]);
    EXPECT(plan[MULTIPARTITION_KIND], job->kind);
    expect_five("a least thickness", plan + MULTIPARTITION_LEAST, job->least);
}

/* The two kinds, and that owners are those of the diagonal formulas: (17 - 4000) modulo 4093; (5 - 11) modulo 37 and (30 - 11) modulo 37. */
static void diagonal_places(void)
{
    const size_t n = MULTIPARTITION_PLAN_LENGTH;
    const uint32_t of_two[2] = {17, 4000}, of_three[3] = {5, 30, 11};
    uint32_t plan[ROOM], answer[ROOM];
    EXPECT(MULTIPARTITION_KIND_PLANNED, planned.kind);
    EXPECT(MULTIPARTITION_KIND_DIAGONAL, diagonal_of_two.kind);
    plan_places(plan, multipartition_diagonal, &diagonal_of_two);
    EXPECT(multipartition_owner(plan, n, of_two, 2, ready(answer), MULTIPARTITION_OWNER_LENGTH), 0);
    EXPECT(answer[MULTIPARTITION_OWNER], 110);
    plan_places(plan, multipartition_diagonal, &diagonal_of_three);
    EXPECT(multipartition_owner(plan, n, of_three, 3, ready(answer), MULTIPARTITION_OWNER_LENGTH), 0);
    EXPECT(answer[MULTIPARTITION_OWNER], 31 * 37 + 19);
}

static void hypercube_places(void)
{
    const struct {
        uint32_t p, position[3], owner;
    } figures[] = {{1, {0, 0, 0}, 0},   {4, {1, 0, 1}, 2},          {16, {3, 0, 2}, 13},      {16, {1, 2, 3}, 4},
                   {64, {5, 6, 7}, 62}, {4096, {63, 63, 63}, 2145}, {4096, {0, 0, 63}, 2080}, {4096, {5, 40, 19}, 2452}};
    for (size_t i = 0; i < sizeof figures / sizeof *figures; i++) {
        uint32_t answer[ROOM];
        EXPECT(multipartition_hypercube_owner(figures[i].p, figures[i].position, 3, ready(answer), MULTIPARTITION_HYPERCUBE_OWNER_LENGTH), 0);
        EXPECT(answer[MULTIPARTITION_HYPERCUBE_OWNER], figures[i].owner);
    }
}

static void answer_places(const uint32_t *plan)
{
    const size_t n = MULTIPARTITION_PLAN_LENGTH;
    const uint32_t position[D] = {3, 11, 4, 217, 8};
    uint32_t answer[ROOM];
    EXPECT(multipartition_owner(plan, n, position, D, ready(answer), MULTIPARTITION_OWNER_LENGTH), 0);
    EXPECT(answer[MULTIPARTITION_OWNER], 1224);
    EXPECT(multipartition_neighbour(plan, n, 1234, 3, 1, ready(answer), MULTIPARTITION_NEIGHBOUR_LENGTH), 0);
    EXPECT(answer[MULTIPARTITION_NEIGHBOUR_FOUND], 1);
    EXPECT(answer[MULTIPARTITION_NEIGHBOUR], 257);
    EXPECT(multipartition_neighbour(plan, n, 1234, 3, 0, ready(answer), MULTIPARTITION_NEIGHBOUR_LENGTH), 0);
    EXPECT(answer[MULTIPARTITION_NEIGHBOUR], 531);
    EXPECT(multipartition_slab(plan, n, 4, 217, ready(answer), MULTIPARTITION_SLAB_LENGTH), 0);
    EXPECT(answer[MULTIPARTITION_SLAB_FIRST], 516677);
    EXPECT(answer[MULTIPARTITION_SLAB_AFTER], 519058);
    EXPECT(multipartition_slab_of(plan, n, 2, 34, ready(answer), MULTIPARTITION_SLAB_OF_LENGTH), 0);
    EXPECT(answer[MULTIPARTITION_SLAB_OF], 6);
    EXPECT(multipartition_tile_number(plan, n, position, D, ready(answer), MULTIPARTITION_TILE_LENGTH), 0);
    EXPECT(answer[MULTIPARTITION_TILE], 1202144);
    EXPECT(multipartition_tile_position(plan, n, 1202144, ready(answer), D), 0);
    expect_five("a coordinate of a tile", answer, position);
}

/* The first slabs are the thick ones: 999,983 elements in 420 slabs are 383 of 2,381 elements and 37 of 2,380. */
static void thick_slabs_first(const uint32_t *plan)
{
    const size_t n = MULTIPARTITION_PLAN_LENGTH;
    const uint32_t slabs[4] = {0, 382, 383, 419}, edges[4][2] = {{0, 2381}, {909542, 911923}, {911923, 914303}, {997603, 999983}};
    for (int i = 0; i < 4; i++) {
        uint32_t answer[ROOM];
        EXPECT(multipartition_slab(plan, n, 4, slabs[i], ready(answer), MULTIPARTITION_SLAB_LENGTH), 0);
        EXPECT(answer[MULTIPARTITION_SLAB_FIRST], edges[i][0]);
        EXPECT(answer[MULTIPARTITION_SLAB_AFTER], edges[i][1]);
        for (int end = 0; end < 2; end++) {
            EXPECT(multipartition_slab_of(plan, n, 4, edges[i][end] - (uint32_t)end, ready(answer), MULTIPARTITION_SLAB_OF_LENGTH), 0);
            EXPECT(answer[MULTIPARTITION_SLAB_OF], slabs[i]);
        }
    }
}

/* Probe lines along each dimension: the first and the last element of every slab, and those of the dimension. Places past the line are kept. */
static void probe_lines(const uint32_t *plan)
{
    enum { MOST_SLABS = 420 };
    static uint32_t ends[2 * MOST_SLABS], slabs[ROOM + 2 * MOST_SLABS];
    for (uint32_t k = 0; k < D; k++) {
        const size_t count = 2 * planned.cuts[k];
        for (uint32_t slab = 0; slab < planned.cuts[k]; slab++) {
            uint32_t answer[ROOM];
            EXPECT(multipartition_slab(plan, MULTIPARTITION_PLAN_LENGTH, k + 1, slab, ready(answer), MULTIPARTITION_SLAB_LENGTH), 0);
            ends[2 * slab] = answer[MULTIPARTITION_SLAB_FIRST];
            ends[2 * slab + 1] = answer[MULTIPARTITION_SLAB_AFTER] - 1;
        }
        ready(slabs + count);
        EXPECT(multipartition_slabs_of(plan, MULTIPARTITION_PLAN_LENGTH, k + 1, ends, count, slabs, count + ROOM), 0);
        for (uint32_t i = 0; i < count; i++)
            expect("the slab of a probe", slabs[i], i / 2);
        for (uint32_t i = 0; i < ROOM; i++)
            expect("a place past the line", slabs[count + i], SPARE + i);
        const uint32_t far[2] = {0, planned.extents[k] - 1};
        EXPECT(multipartition_slabs_of(plan, MULTIPARTITION_PLAN_LENGTH, k + 1, far, 2, slabs, 2), 0);
        expect("the slab of the first element", slabs[0], 0);
        expect("the slab of the last element", slabs[1], planned.cuts[k] - 1);
    }
}

/* A page of a slab sheet, in a longer list whose bytes behind it are kept. */
enum { LINE = MULTIPARTITION_SHEET_COLUMNS + 1, SHEET_ROOM = 4000, UNWRITTEN = 238 };

static const uint8_t *page_of(const uint32_t *plan, uint32_t dimension, uint32_t page, const char *caption)
{
    static uint8_t sheet[SHEET_ROOM];
    const size_t n = MULTIPARTITION_PLAN_LENGTH;
    const uint8_t *bytes = (const uint8_t *)caption;
    memset(sheet, UNWRITTEN, sizeof sheet);
    EXPECT(multipartition_slab_sheet(plan, n, dimension, page, bytes, strlen(caption), sheet, MULTIPARTITION_SHEET_LENGTH), 0);
    for (size_t i = MULTIPARTITION_SHEET_LENGTH; i < sizeof sheet; i++)
        expect("a byte past the page", sheet[i], UNWRITTEN);
    return sheet;
}

static void expect_line(const uint8_t *sheet, uint32_t line, const char *text)
{
    if (memcmp(sheet + LINE * line, text, LINE) == 0)
        return;
    printf("line %" PRIu32 " of a page is\n%.*s, not\n%s", line + 1, LINE, (const char *)sheet + LINE * line, text);
    failures++;
}

/* Every line of every page: the slab, its elements as the slab question has them, the tiles per processor and the caption, cut; then blank lines. */
static void sheet_places(const uint32_t *plan)
{
    const uint32_t lines = MULTIPARTITION_SHEET_LINES, shares[D] = {105, 30, 70, 1, 42};
    const char *caption = "Casting 17, gate side, and what is cut behind it", *shown = "Casting 17, gate side, and what is cut";
    EXPECT(strlen(shown), MULTIPARTITION_SHEET_CAPTION);
    EXPECT(lines * LINE, MULTIPARTITION_SHEET_LENGTH);
    for (uint32_t k = 0; k < D; k++)
        for (uint32_t page = 0; page * lines < planned.cuts[k]; page++) {
            const uint8_t *sheet = page_of(plan, k + 1, page, caption);
            for (uint32_t line = 0; line < lines; line++) {
                const uint32_t slab = page * lines + line;
                uint32_t answer[ROOM];
                char text[2 * LINE];
                if (slab < planned.cuts[k]) {
                    EXPECT(multipartition_slab(plan, MULTIPARTITION_PLAN_LENGTH, k + 1, slab, ready(answer), MULTIPARTITION_SLAB_LENGTH), 0);
                    snprintf(text, sizeof text, "%6" PRIu32 " %8" PRIu32 " %8" PRIu32 " %8" PRIu32 " %-*.*s\n", slab,
                             answer[MULTIPARTITION_SLAB_FIRST], answer[MULTIPARTITION_SLAB_AFTER], shares[k], MULTIPARTITION_SHEET_CAPTION,
                             MULTIPARTITION_SHEET_CAPTION, caption);
                } else {
                    snprintf(text, sizeof text, "%*s\n", MULTIPARTITION_SHEET_COLUMNS, "");
                }
                expect_line(sheet, line, text);
            }
        }
}

/* Four slabs of ten elements, with a tab in the caption; and the last page of 4,096 slabs. */
static void sheet_figures(void)
{
    const size_t n = MULTIPARTITION_PLAN_LENGTH;
    const uint32_t tens[2] = {10, 10}, wide[2] = {1000000, 4096}, ones[2] = {1, 1};
    uint32_t plan[ROOM];
    EXPECT(multipartition_plan(4, 2, tens, 2, ones, 2, nothing, 0, ready(plan), n), 0);
    const uint8_t *sheet = page_of(plan, 1, 0, "Casting 17, gate side\tA");
    expect_line(sheet, 0, "     0        0        3        1 Casting 17, gate side?A               \n");
    expect_line(sheet, 2, "     2        6        8        1 Casting 17, gate side?A               \n");
    expect_line(sheet, 3, "     3        8       10        1 Casting 17, gate side?A               \n");
    expect_line(sheet, 4, "                                                                        \n");
    expect_line(sheet, 49, "                                                                        \n");
    EXPECT(multipartition_plan(4096, 2, wide, 2, ones, 2, nothing, 0, ready(plan), n), 0);
    sheet = page_of(plan, 1, 81, "0123456789012345678901234567890123456789");
    expect_line(sheet, 45, "  4095   999756  1000000        1 01234567890123456789012345678901234567\n");
    expect_line(sheet, 46, "                                                                        \n");
    uint8_t last[MULTIPARTITION_SHEET_LENGTH];
    EXPECT(multipartition_slab_sheet(plan, n, 1, 82, sheet, 0, last, sizeof last), MULTIPARTITION_OUT_OF_RANGE);
}

/* No slab is thinner than the least thickness of its dimension, and in dimension 4 the last ones are just as thick. */
static void thick_enough(const uint32_t *plan)
{
    for (uint32_t k = 0; k < D; k++) {
        uint32_t thinnest = UINT32_MAX;
        for (uint32_t slab = 0; slab < planned.cuts[k]; slab++) {
            uint32_t answer[ROOM];
            EXPECT(multipartition_slab(plan, MULTIPARTITION_PLAN_LENGTH, k + 1, slab, ready(answer), MULTIPARTITION_SLAB_LENGTH), 0);
            const uint32_t thickness = answer[MULTIPARTITION_SLAB_AFTER] - answer[MULTIPARTITION_SLAB_FIRST];
            thinnest = thickness < thinnest ? thickness : thinnest;
        }
        EXPECT(thinnest >= plan[MULTIPARTITION_LEAST + k], 1);
        EXPECT(k != 3 || thinnest == planned.least[3], 1);
    }
}

/* Cuts of 4 processors on 8 8 8 with other least thicknesses, and those of document 02: 6 6 is cut 2 2 with thickness 3 both ways. No thicknesses at
 * all make the same list as ones. */
static void least_thicknesses(void)
{
    const size_t n = MULTIPARTITION_PLAN_LENGTH;
    const uint32_t eights[3] = {8, 8, 8}, sixes[2] = {6, 6}, ones[3] = {1, 1, 1}, threes[2] = {3, 3};
    const uint32_t least[4][3] = {{1, 1, 1}, {4, 4, 4}, {1, 1, 5}, {5, 2, 2}}, cuts[4][3] = {{2, 2, 2}, {2, 2, 2}, {4, 4, 1}, {1, 4, 4}};
    uint32_t plan[ROOM], same[ROOM];
    for (int i = 0; i < 4; i++) {
        EXPECT(multipartition_plan(4, 3, eights, 3, ones, 3, least[i], 3, ready(plan), n), 0);
        for (int k = 0; k < 3; k++) {
            expect("a cut of three", plan[MULTIPARTITION_CUTS + k], cuts[i][k]);
            expect("a thickness of three", plan[MULTIPARTITION_LEAST + k], least[i][k]);
        }
    }
    EXPECT(multipartition_plan(2, 2, sixes, 2, ones, 2, threes, 2, ready(plan), n), 0);
    EXPECT(plan[MULTIPARTITION_CUTS], 2);
    EXPECT(plan[MULTIPARTITION_CUTS + 1], 2);
    planning *const calls[2] = {multipartition_plan, multipartition_diagonal};
    for (int i = 0; i < 2; i++) {
        EXPECT(calls[i](4, 3, eights, 3, ones, 3, ones, 3, ready(plan), n), 0);
        EXPECT(calls[i](4, 3, eights, 3, ones, 3, nothing, 0, ready(same), n), 0);
        for (int at = 0; at < ROOM; at++)
            expect("a place of the same list", same[at], plan[at]);
    }
}

/* The smallest divisor of p for which a job is refused with 5, or 0 where there is nothing to show. Places past the answer are kept. Where all least
 * thicknesses are 1, an empty list of them says the same. */
static void share_places(void)
{
    static const struct {
        uint32_t p, d, extents[D], least[D], divisor;
    } figures[] = {{12, 2, {5, 5}, {1, 1}, 6},
                   {12, 2, {9, 9}, {1, 1}, 12},
                   {12, 2, {12, 12}, {1, 1}, 0},
                   {4096, 2, {4096, 4095}, {1, 1}, 4096},
                   {30, 3, {5, 5, 5}, {1, 1, 1}, 6},
                   {60, 3, {6, 6, 6}, {1, 1, 1}, 10},
                   {3360, 3, {20, 20, 20}, {1, 1, 1}, 21},
                   {4095, 3, {63, 64, 65}, {1, 1, 1}, 91},
                   {4093, 5, {4092, 4092, 4092, 4092, 4092}, {1, 1, 1, 1, 1}, 4093},
                   {2, 2, {3, 3}, {4, 1}, 1},
                   {2520, 4, {50, 50, 50, 50}, {3, 3, 3, 3}, 252}};
    for (size_t i = 0; i < sizeof figures / sizeof *figures; i++) {
        const uint32_t d = figures[i].d, *extents = figures[i].extents, *least = figures[i].least;
        int ones = 1;
        for (uint32_t k = 0; k < d; k++)
            ones = ones && least[k] == 1;
        for (int without = 0; without <= ones; without++) {
            const uint32_t *given = without ? nothing : least;
            const size_t count = without ? 0 : d, n = MULTIPARTITION_SMALLEST_REFUSED_LENGTH;
            uint32_t answer[ROOM];
            EXPECT(multipartition_smallest_refused(figures[i].p, d, extents, d, planned.weights, d, given, count, ready(answer), n), 0);
            EXPECT(answer[MULTIPARTITION_SMALLEST_REFUSED_FOUND], figures[i].divisor != 0);
            EXPECT(answer[MULTIPARTITION_SMALLEST_REFUSED], figures[i].divisor);
            for (uint32_t at = 2; at < ROOM; at++)
                expect("a place past the answer", answer[at], SPARE + at);
        }
    }
}

static void step_places(const uint32_t *plan)
{
    const size_t n = MULTIPARTITION_PLAN_LENGTH;
    const uint32_t position[D] = {3, 11, 4, 217, 8};
    const uint32_t up[D] = {3, 12, 4, 217, 8};
    const uint32_t down[D] = {3, 10, 4, 217, 8};
    const uint32_t zeros[D] = {0};
    uint32_t answer[ROOM];
    EXPECT(multipartition_step(plan, n, position, D, 2, 1, ready(answer), MULTIPARTITION_STEP_LENGTH(D)), 0);
    EXPECT(answer[MULTIPARTITION_STEP_INSIDE], 1);
    expect_five("a coordinate one step up", answer + MULTIPARTITION_STEP_POSITION, up);
    EXPECT(multipartition_step(plan, n, position, D, 2, 0, ready(answer), MULTIPARTITION_STEP_LENGTH(D)), 0);
    EXPECT(answer[MULTIPARTITION_STEP_INSIDE], 1);
    expect_five("a coordinate one step down", answer + MULTIPARTITION_STEP_POSITION, down);
    EXPECT(multipartition_step(plan, n, position, D, 1, 1, ready(answer), MULTIPARTITION_STEP_LENGTH(D)), 0);
    EXPECT(answer[MULTIPARTITION_STEP_INSIDE], 0);
    expect_five("a coordinate beyond the edge", answer + MULTIPARTITION_STEP_POSITION, zeros);
}

/* Slab, tiles, whether it sends, to whom, how much, whether it receives, from whom, how much. */
static void visit_places(const uint32_t *plan, uint32_t up, uint32_t step, const uint32_t figures[8])
{
    uint32_t answer[ROOM];
    EXPECT(multipartition_timetable(plan, MULTIPARTITION_PLAN_LENGTH, 2, up, step, 123, ready(answer), MULTIPARTITION_TIMETABLE_LENGTH), 0);
    EXPECT(answer[MULTIPARTITION_TIMETABLE_SLAB], figures[0]);
    EXPECT(answer[MULTIPARTITION_TIMETABLE_TILES], figures[1]);
    EXPECT(answer[MULTIPARTITION_TIMETABLE_SENDS], figures[2]);
    EXPECT(answer[MULTIPARTITION_TIMETABLE_SEND_TO], figures[3]);
    EXPECT(answer[MULTIPARTITION_TIMETABLE_SEND_LENGTH], figures[4]);
    EXPECT(answer[MULTIPARTITION_TIMETABLE_RECEIVES], figures[5]);
    EXPECT(answer[MULTIPARTITION_TIMETABLE_RECEIVE_FROM], figures[6]);
    EXPECT(answer[MULTIPARTITION_TIMETABLE_RECEIVE_LENGTH], figures[7]);
}

/* A sweep along dimension 2, of 14 slabs: at the ends the figures that are not 0 all differ; between them only the two 1 and the two lengths agree,
 * as they must. */
static void timetable_places(void)
{
    const uint32_t four_extents[4] = {101, 67, 41, 211}, four_weights[4] = {3, 5, 17, 2};
    const uint32_t first[8] = {13, 15, 1, 294, 2082, 0, 0, 0}, up[8] = {9, 15, 1, 330, 2082, 1, 294, 2082};
    const uint32_t down[8] = {4, 15, 1, 294, 2090, 1, 330, 2090}, last[8] = {13, 15, 0, 0, 0, 1, 294, 2082};
    uint32_t plan[ROOM];
    EXPECT(multipartition_plan(420, 4, four_extents, 4, four_weights, 4, nothing, 0, ready(plan), MULTIPARTITION_PLAN_LENGTH), 0);
    visit_places(plan, 0, 0, first);
    visit_places(plan, 1, 9, up);
    visit_places(plan, 0, 9, down);
    visit_places(plan, 1, 13, last);
}

/* The largest message that there is: a lone processor's, where dimension 3 is cut by hand. */
static void largest_length(void)
{
    const size_t n = MULTIPARTITION_PLAN_LENGTH;
    const uint32_t three_extents[3] = {65535, 65537, 2};
    uint32_t plan[ROOM], answer[ROOM];
    EXPECT(multipartition_plan(1, 3, three_extents, 3, planned.weights, 3, nothing, 0, ready(plan), n), 0);
    plan[MULTIPARTITION_CUTS + 2] = 2;
    EXPECT(multipartition_timetable(plan, n, 3, 1, 0, 0, ready(answer), MULTIPARTITION_TIMETABLE_LENGTH), 0);
    EXPECT(answer[MULTIPARTITION_TIMETABLE_SEND_LENGTH], UINT32_MAX);
}

/* A plan made by hand, through the names; its owners are the same with either kind. The tile one step from the first along dimension k has column k
 * as its coordinates. */
static void plan_by_hand(void)
{
    const size_t n = MULTIPARTITION_PLAN_LENGTH;
    const uint32_t hand_moduli[D] = {4, 6, 7, 8, 3};
    const uint32_t rows[D][D] = {{3, 1, 2, 0, 1}, {5, 2, 4, 3, 1}, {6, 3, 1, 5, 2}, {7, 4, 6, 1, 3}, {2, 1, 0, 2, 1}};
    const uint32_t owners[D] = {4031, 1429, 2730, 629, 1234};
    uint32_t plan[ROOM], answer[ROOM];
    ready(plan);
    plan[MULTIPARTITION_DIMENSIONS] = D;
    plan[MULTIPARTITION_PROCESSORS] = 4032;
    for (int i = 0; i < D; i++) {
        plan[MULTIPARTITION_EXTENTS + i] = planned.extents[i];
        plan[MULTIPARTITION_CUTS + i] = planned.cuts[i];
        plan[MULTIPARTITION_MODULI + i] = hand_moduli[i];
        plan[MULTIPARTITION_LEAST + i] = planned.least[i];
        for (int k = 0; k < D; k++)
            plan[MULTIPARTITION_MATRIX + i * MULTIPARTITION_ROW_LENGTH + k] = rows[i][k];
    }
    for (int k = 0; k < D; k++) {
        uint32_t position[D] = {0};
        position[k] = 1;
        plan[MULTIPARTITION_KIND] = MULTIPARTITION_KIND_PLANNED;
        EXPECT(multipartition_owner(plan, n, position, D, ready(answer), MULTIPARTITION_OWNER_LENGTH), 0);
        EXPECT(answer[MULTIPARTITION_OWNER], owners[k]);
        plan[MULTIPARTITION_KIND] = MULTIPARTITION_KIND_DIAGONAL;
        EXPECT(multipartition_owner(plan, n, position, D, ready(answer), MULTIPARTITION_OWNER_LENGTH), 0);
        EXPECT(answer[MULTIPARTITION_OWNER], owners[k]);
    }
    plan[MULTIPARTITION_CUTS + 3] = 1;
    EXPECT(multipartition_neighbour(plan, n, 1234, 4, 1, ready(answer), MULTIPARTITION_NEIGHBOUR_LENGTH), 0);
    EXPECT(answer[MULTIPARTITION_NEIGHBOUR_FOUND], 0);
    EXPECT(answer[MULTIPARTITION_NEIGHBOUR], 0);
}

/* The chains of 4 processors on 8 8 8; of 5 on 4 9 9, where dimension 1 is uncut; and of 6 on 9 9 9, where the cuts 2 3 6 all differ. */
static void chain_lists(void)
{
    static const struct {
        uint32_t p, extents[3], tiles, lowest[6], higher[36];
    } figures[3] = {{4, {8, 8, 8}, 8, {1, 4, 2, 3}, {8, 7, 6, 5, 0, 0, 0, 0}},
                    {5, {4, 9, 9}, 25, {1, 5, 4, 3, 2}, {7, 8, 9, 10, 6, 12, 13, 14, 15, 11, 17, 18, 19, 20, 16, 22, 23, 24, 25, 21, 0, 0, 0, 0, 0}},
                    {6, {9, 9, 9}, 36, {1, 6, 5, 4, 3, 2}, {8,  9,  10, 11, 12, 7,  14, 15, 16, 17, 18, 13, 20, 21, 22, 23, 24, 19,
                                                            26, 27, 28, 29, 30, 25, 32, 33, 34, 35, 36, 31, 0,  0,  0,  0,  0,  0}}};
    const size_t n = MULTIPARTITION_PLAN_LENGTH;
    const uint32_t ones[3] = {1, 1, 1};
    for (int i = 0; i < 3; i++) {
        uint32_t plan[ROOM], heads[ROOM], nexts[ROOM];
        EXPECT(multipartition_plan(figures[i].p, 3, figures[i].extents, 3, ones, 3, ones, 3, ready(plan), n), 0);
        EXPECT(multipartition_chains(plan, n, ready(heads), figures[i].p, ready(nexts), figures[i].tiles), 0);
        for (uint32_t q = 0; q < figures[i].p; q++)
            expect("a lowest tile", heads[q], figures[i].lowest[q]);
        for (uint32_t t = 0; t < figures[i].tiles; t++)
            expect("a next higher tile", nexts[t], figures[i].higher[t]);
    }
}

/* Tile numbers with cuts 2 3 6: the first dimension runs fastest. */
static void tile_numbers(void)
{
    const size_t n = MULTIPARTITION_PLAN_LENGTH;
    const uint32_t nines[3] = {9, 9, 9}, ones[3] = {1, 1, 1};
    const struct {
        uint32_t position[3], tile;
    } figures[6] = {{{1, 0, 0}, 2}, {{0, 1, 0}, 3}, {{0, 0, 1}, 7}, {{1, 2, 3}, 24}, {{0, 0, 5}, 31}, {{1, 2, 5}, 36}};
    uint32_t plan[ROOM], answer[ROOM];
    EXPECT(multipartition_plan(6, 3, nines, 3, ones, 3, nothing, 0, ready(plan), n), 0);
    for (int i = 0; i < 6; i++) {
        EXPECT(multipartition_tile_number(plan, n, figures[i].position, 3, ready(answer), MULTIPARTITION_TILE_LENGTH), 0);
        EXPECT(answer[MULTIPARTITION_TILE], figures[i].tile);
        EXPECT(multipartition_tile_position(plan, n, figures[i].tile, ready(answer), 3), 0);
        for (int k = 0; k < 3; k++)
            expect("a coordinate of a tile of three", answer[k], figures[i].position[k]);
    }
}

/* The length is one more than d whatever stands around it and in it, and the answer has so many places for another d too. */
static void step_lengths(void)
{
    const size_t n = MULTIPARTITION_PLAN_LENGTH;
    const uint32_t eights[3] = {8, 8, 8}, ones[3] = {1, 1, 1}, position[3] = {0, 1, 0}, up[3] = {0, 1, 1};
    const int d = D;
    uint32_t plan[ROOM], answer[ROOM];
    EXPECT(MULTIPARTITION_STEP_LENGTH(ones[0] ? d : 0), 6);
    EXPECT(2 * MULTIPARTITION_STEP_LENGTH(d), 12);
    EXPECT(multipartition_plan(4, 3, eights, 3, ones, 3, ones, 3, ready(plan), n), 0);
    EXPECT(multipartition_step(plan, n, position, 3, 3, 1, ready(answer), MULTIPARTITION_STEP_LENGTH(3)), 0);
    EXPECT(answer[MULTIPARTITION_STEP_INSIDE], 1);
    for (int k = 0; k < 3; k++)
        expect("a coordinate of three", answer[MULTIPARTITION_STEP_POSITION + k], up[k]);
}

/* Places of refusals: the last extent or the last thickness is 0, or the last probe of many is smaller than the one before. */
static void refusal_places(void)
{
    enum { MANY = 70000 };
    const size_t n = MULTIPARTITION_PLAN_LENGTH;
    const uint32_t eights[D] = {8, 8, 8, 8, 8}, last_bad[D] = {8, 8, 8, 8, 0};
    static uint32_t elements[MANY], slabs[MANY];
    uint32_t plan[ROOM];
    const uint64_t extent = multipartition_plan(4, D, last_bad, D, planned.weights, D, nothing, 0, ready(plan), n);
    const uint64_t thickness = multipartition_plan(4, D, eights, D, planned.weights, D, last_bad, D, ready(plan), n);
    EXPECT(multipartition_number_of(extent), MULTIPARTITION_BAD_EXTENT);
    EXPECT(multipartition_place_of(extent), 5);
    EXPECT(multipartition_number_of(thickness), MULTIPARTITION_BAD_THICKNESS);
    EXPECT(multipartition_place_of(thickness), 5);
    EXPECT(multipartition_smallest_refused(4, D, last_bad, D, planned.weights, D, nothing, 0, ready(plan), 2), extent);
    EXPECT(multipartition_smallest_refused(4, D, eights, D, planned.weights, D, last_bad, D, ready(plan), 2), thickness);
    EXPECT(multipartition_plan(4, D, eights, D, planned.weights, D, nothing, 0, ready(plan), n), 0);
    for (size_t i = 0; i < MANY; i++)
        elements[i] = i + 1 < MANY ? 7 : 6;
    const uint64_t fall = multipartition_slabs_of(plan, n, 1, elements, MANY, slabs, MANY);
    EXPECT(multipartition_number_of(fall), MULTIPARTITION_NOT_RISING);
    EXPECT(multipartition_place_of(fall), MANY);
}

int main(void)
{
    uint32_t plan[ROOM];
    plan_places(plan, multipartition_plan, &planned);
    answer_places(plan);
    thick_slabs_first(plan);
    probe_lines(plan);
    sheet_places(plan);
    sheet_figures();
    thick_enough(plan);
    least_thicknesses();
    share_places();
    step_places(plan);
    step_lengths();
    timetable_places();
    largest_length();
    refusal_places();
    plan_by_hand();
    tile_numbers();
    chain_lists();
    diagonal_places();
    hypercube_places();
    if (failures == 0)
        printf("every place is as named\n");
    return failures == 0 ? EXIT_SUCCESS : EXIT_FAILURE;
}
