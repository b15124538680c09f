/* Even tiles for line sweeps: plans and questions about them, for a solver in C.
 *
 * Link target/staticlib/libsolver_link.a, which `./build-link` proves and builds.
 *
 * Lists are of 32-bit numbers, and each is passed as a pointer and its length, which counts numbers, not bytes; only the caption and the page of a
 * slab sheet are lists of bytes, and their lengths count bytes. Dimensions are numbered from 1; processors, slabs, elements, steps of a sweep and
 * pages of a sheet from 0; tiles from 1.
 *
 * Proved, for all numbers and for lists of all lengths and contents:
 * - Every call returns. It returns 0 and has written every place of its answer lists (multipartition_slabs_of: one place for each element, from
 *   the front, and no others), or it returns a refusal and has written nothing. The refusal is the first of the table below that applies.
 * - What a call returns and writes is settled by its numbers and its lists alone, and it writes no other list.
 * - A plan list is any list of 55 numbers. One that multipartition_plan or multipartition_diagonal wrote is in shape, and its tiles are even: every
 *   processor owns equally many tiles in every slab of every dimension. One that is made or changed by hand is answered by the same formulas where
 *   it is in shape, and refused with 6 where it is not; of such a list it is not said that its tiles are even, whatever its kind.
 * - The cuts that multipartition_plan writes are the cheapest of all even cuts that fit, where a dimension costs (cut - 1) * weight; among equal costs
 *   those with the fewest tiles, and among these the ones with the smaller cut at the first dimension that differs. Cuts fit if each cut times the
 *   least thickness of its dimension is at most the extent. An empty list of least thicknesses and a list of ones get the same plan.
 * - For a job that multipartition_plan refuses with 5, and for no other, multipartition_smallest_refused shows a divisor of p. For it the same job is
 *   refused with 5, and for every divisor of p that it divides; for every smaller divisor of p the job is accepted.
 * - In every plan list in shape the slabs of a dimension hold each of its elements once, and multipartition_slab_of names the slab that holds it. The
 *   first (extent modulo cut) slabs have one element more than the others; so no slab has more elements than one before it, nor fewer than the extent
 *   divided by the cut, rounded down, and two of them differ by at most one. Every slab has at least the least thickness of its dimension.
 * - Each slab that multipartition_slabs_of writes is the one that multipartition_slab_of answers for that element, and where the latter refuses an
 *   element with 6, 7 or 8, the former refuses the whole list with the same number.
 * - The page that multipartition_slab_sheet writes is, byte for byte, the one that is laid out below, for every plan list in shape. The elements on a
 *   line are those that multipartition_slab answers for the slab; for a list that multipartition_plan or multipartition_diagonal wrote, the tiles per
 *   processor are exactly tiles / (cut * p), and every processor owns just as many tiles of the slab.
 * - The answers of multipartition_timetable fit together, for every plan list in shape: what a processor sends after a step is exactly what its
 *   receiver expects before the next, and the receiver names the sender; except after the last step, the lengths that all processors send after a
 *   step add up to the product of the extents of the other dimensions; no length is cut off to 32 bits. For a list that multipartition_plan or
 *   multipartition_diagonal wrote, every processor works on exactly tiles / (cut * p) tiles in every step.
 * - An owner that multipartition_hypercube_owner gives is below p. The owners of two tiles with a common face differ in one bit if the face is along
 *   dimension 1 or 2, and in two bits if it is along dimension 3.
 *
 * What follows from it: a call reads and writes its lists and its own stack and nothing else. The archive has no variables, asks for no
 * memory and calls nothing but memcpy and memset. So calls from several threads need no lock, as long as no list is written in one thread
 * while another thread's call uses it.
 *
 * What a caller must see to, since C does not check it: every pointer is not null, also for a list of length 0, points to as many numbers as
 * its length says, no answer list shares a place with another list of the call, and the thread has the stack that the call needs, which is
 * measured and not proved (MULTIPARTITION_PLAN_STACK and the like below). Where slabs begin and how tiles are numbered is not in a plan list, and
 * earlier archives had other edges and other tile numbers (the last dimension ran fastest) for the same list and, among equal costs, other cuts for
 * the same job, and knew no least thicknesses, which the calls that take a job now take: all programs of a run are compiled with this header and link
 * one archive, and data stored by slab or by tile are read by the edges, the numbering and the plan that they were written with.
 */
#ifndef MULTIPARTITION_H
#define MULTIPARTITION_H

#include <stddef.h>
#include <stdint.h>

#ifdef __cplusplus
extern "C" {
#endif

/* The places of a plan list. Extents, weights, cuts, moduli and least thicknesses have five places each, for dimension 1 first; the matrix has five
 * rows of five places, row after row. Places past the number of dimensions are 0 in a list that a call wrote, and are never read. The cost is the sum
 * of (cut - 1) * weight over the dimensions; no question reads it. The kind says which call wrote the list; no answer depends on which of the two it
 * is. The least thicknesses are those of the job, or ones where it gave none; a list in which one is 0, or times the cut above the extent, is out of
 * shape, and nothing else depends on them. Lists had 49 numbers before they had a kind, and 50 before they had least thicknesses: such a list is
 * refused with 6. */
enum {
    MULTIPARTITION_DIMENSIONS = 0, /* d, the number of dimensions */
    MULTIPARTITION_PROCESSORS = 1, /* p, the number of processors */
    MULTIPARTITION_EXTENTS = 2,
    MULTIPARTITION_WEIGHTS = 7,
    MULTIPARTITION_CUTS = 12,     /* the number of slabs of each dimension */
    MULTIPARTITION_COST_LOW = 17, /* the lower 32 bits of the cost */
    MULTIPARTITION_COST_HIGH = 18,
    MULTIPARTITION_MODULI = 19,
    MULTIPARTITION_MATRIX = 24,
    MULTIPARTITION_KIND = 49,  /* 0 for the planner's plans, 1 for diagonal ones; a list with another kind is out of shape */
    MULTIPARTITION_LEAST = 50, /* the least thickness of the slabs of each dimension, in elements */
    MULTIPARTITION_PLAN_LENGTH = 55,
    MULTIPARTITION_ROW_LENGTH = 5 /* row i, counted from 0, starts at MULTIPARTITION_MATRIX + i * MULTIPARTITION_ROW_LENGTH */
};

/* The kinds of a plan. */
enum {
    MULTIPARTITION_KIND_PLANNED = 0, /* by multipartition_plan */
    MULTIPARTITION_KIND_DIAGONAL = 1 /* by multipartition_diagonal */
};

/* The places of the other answer lists. */
enum {
    MULTIPARTITION_SMALLEST_REFUSED_FOUND = 0, /* 1, or 0 if the job is accepted and there is nothing to show */
    MULTIPARTITION_SMALLEST_REFUSED = 1,       /* the divisor of p, or 0 if there is nothing to show */
    MULTIPARTITION_SMALLEST_REFUSED_LENGTH = 2,

    MULTIPARTITION_OWNER = 0, /* the processor */
    MULTIPARTITION_OWNER_LENGTH = 1,

    MULTIPARTITION_HYPERCUBE_OWNER = 0, /* the processor */
    MULTIPARTITION_HYPERCUBE_OWNER_LENGTH = 1,

    MULTIPARTITION_NEIGHBOUR_FOUND = 0, /* 1, or 0 if there is no neighbour */
    MULTIPARTITION_NEIGHBOUR = 1,       /* the processor, or 0 if there is no neighbour */
    MULTIPARTITION_NEIGHBOUR_LENGTH = 2,

    MULTIPARTITION_SLAB_FIRST = 0, /* the slab's first element */
    MULTIPARTITION_SLAB_AFTER = 1, /* the element after its last */
    MULTIPARTITION_SLAB_LENGTH = 2,

    MULTIPARTITION_SLAB_OF = 0, /* the slab */
    MULTIPARTITION_SLAB_OF_LENGTH = 1,

    MULTIPARTITION_TILE = 0, /* the tile's number */
    MULTIPARTITION_TILE_LENGTH = 1,

    MULTIPARTITION_STEP_INSIDE = 0,   /* 1, or 0 if the step leaves the grid */
    MULTIPARTITION_STEP_POSITION = 1, /* from here on the position one step on, or d times 0 if the step leaves the grid */

    MULTIPARTITION_TIMETABLE_SLAB = 0,           /* the slab visited */
    MULTIPARTITION_TIMETABLE_TILES = 1,          /* how many tiles of it the processor works on */
    MULTIPARTITION_TIMETABLE_SENDS = 2,          /* 1, or 0 after the last step */
    MULTIPARTITION_TIMETABLE_SEND_TO = 3,        /* the processor it sends to afterwards, or 0 if it does not send */
    MULTIPARTITION_TIMETABLE_SEND_LENGTH = 4,    /* how many elements, or 0 if it does not send */
    MULTIPARTITION_TIMETABLE_RECEIVES = 5,       /* 1, or 0 before step 0 */
    MULTIPARTITION_TIMETABLE_RECEIVE_FROM = 6,   /* the processor it receives from beforehand, or 0 if it does not receive */
    MULTIPARTITION_TIMETABLE_RECEIVE_LENGTH = 7, /* how many elements, or 0 if it does not receive */
    MULTIPARTITION_TIMETABLE_LENGTH = 8
};

/* A page of a slab sheet, in bytes. */
enum {
    MULTIPARTITION_SHEET_LINES = 50,
    MULTIPARTITION_SHEET_COLUMNS = 72,
    MULTIPARTITION_SHEET_CAPTION = 38, /* the columns for the caption */
    MULTIPARTITION_SHEET_LENGTH = 3650 /* 50 lines of 72 columns and a newline */
};

/* A position is a list of d coordinates, that of dimension 1 first; each is a slab of its dimension. The answer to a step is longer by one. */
#define MULTIPARTITION_STEP_LENGTH(dimensions) (MULTIPARTITION_STEP_POSITION + (dimensions))

/* The bytes of stack that must be left where a call is made, on x86-64: measured, with a quarter or more to spare, also for the first call of a
 * process, in which the dynamic linker looks up memcpy and memset on the same stack. */
enum {
    MULTIPARTITION_PLAN_STACK = 114688, /* multipartition_smallest_refused too */
    MULTIPARTITION_CHAINS_STACK = 73728,
    MULTIPARTITION_TIMETABLE_STACK = 49152,
    MULTIPARTITION_QUESTION_STACK = 8192 /* all other calls, multipartition_diagonal too */
};

/* What a call returns: 0, or a refusal's number in the lower 32 bits and its place in the upper 32. Refusals stand here in the order in which they
 * are checked. No call returns 10, which is only for the text that the program `plan` reads. */
enum multipartition_number {
    MULTIPARTITION_ANSWERED = 0,
    MULTIPARTITION_BAD_DIMENSIONS = 1,     /* d is not 2 to 5 */
    MULTIPARTITION_BAD_PROCESSORS = 2,     /* p is not 1 to 4,096 */
    MULTIPARTITION_UNSUITED = 12,          /* p or d does not suit the layout */
    MULTIPARTITION_BAD_JOB_LENGTH = 3,     /* not d extents and d weights, or least thicknesses that are neither none nor d many */
    MULTIPARTITION_BAD_EXTENT = 4,         /* an extent is not 1 to 1,000,000; the place is the first such dimension */
    MULTIPARTITION_BAD_THICKNESS = 13,     /* a least thickness is 0; the place is the first such dimension */
    MULTIPARTITION_NO_CUTS = 5,            /* no cuts that fit are even; or the cuts of the diagonal layout do not fit */
    MULTIPARTITION_BAD_PLAN = 6,           /* the plan list has another length than 55, or its plan is out of shape */
    MULTIPARTITION_BAD_DIMENSION = 7,      /* the dimension is not 1 to d */
    MULTIPARTITION_OTHER_EXTENTS = 11,     /* the product of the extents of the other dimensions is above 4,294,967,295 */
    MULTIPARTITION_OUT_OF_RANGE = 8,       /* a slab, element, tile, coordinate, step, processor or page out of range, or a wrong number of coordinates */
    MULTIPARTITION_BAD_ANSWER_LENGTH = 9,  /* an answer list of another length; for multipartition_slabs_of, one shorter than its list of elements */
    MULTIPARTITION_NOT_RISING = 14         /* an element is smaller than the one before; the place is that of the first such, counted from 1 */
};

/* Of what a call returned, the number and the place (0 unless named above). */
static inline enum multipartition_number multipartition_number_of(uint64_t returned)
{
    return (enum multipartition_number)(returned & UINT32_MAX);
}

static inline uint32_t multipartition_place_of(uint64_t returned)
{
    return (uint32_t)(returned >> 32);
}

/* Plans a job: the even cuts that fit and cost least, and the rule that says who owns each tile. `least` says for each dimension how many elements
 * every slab must have, from 1 to 4,294,967,295: for a stencil, as many as it reads past a tile's edge. An empty list says 1 for every dimension.
 * The answer list is a plan list. Refused with 1, 2, 3, 4, 13, 5, then 9. */
uint64_t multipartition_plan(uint32_t processors, uint32_t dimensions,
                             const uint32_t *extents, size_t extents_length,
                             const uint32_t *weights, size_t weights_length,
                             const uint32_t *least, size_t least_length,
                             uint32_t *plan, size_t plan_length);

/* How far down to go: for a job that multipartition_plan refuses with 5, the smallest divisor of p for which the same job is refused with 5. It may be
 * 1, where a least thickness is above its extent, and p itself. Every smaller divisor of p is accepted, and every divisor of p that is a multiple of it is
 * refused with 5 too. For an accepted job there is nothing to show. The arguments are those of multipartition_plan. Refused with 1, 2, 3, 4, 13,
 * then 9. */
uint64_t multipartition_smallest_refused(uint32_t processors, uint32_t dimensions,
                                         const uint32_t *extents, size_t extents_length,
                                         const uint32_t *weights, size_t weights_length,
                                         const uint32_t *least, size_t least_length,
                                         uint32_t *answer, size_t answer_length);

/* Plans a job with the diagonal layout. For d = 2 there are p cuts each way, and the tile at i1 i2 belongs to (i1 - i2) modulo p. For d = 3 and
 * p = s * s there are s cuts each way, and the tile at i1 i2 i3 belongs to ((i1 - i3) modulo s) * s + ((i2 - i3) modulo s). Here i counts from 0,
 * and a number modulo m is 0 to m - 1, also where the number is negative. multipartition_plan accepts every job that this call accepts, and costs no
 * more. `least` is as there. The answer list is a plan list. Refused with 1, 2, 12 (d is 4 or 5, or d is 3 and p is not a square), 3, 4, 13, 5, then
 * 9. */
uint64_t multipartition_diagonal(uint32_t processors, uint32_t dimensions,
                                 const uint32_t *extents, size_t extents_length,
                                 const uint32_t *weights, size_t weights_length,
                                 const uint32_t *least, size_t least_length,
                                 uint32_t *plan, size_t plan_length);

/* Who owns the tile at a position. Refused with 6, 8, 9. */
uint64_t multipartition_owner(const uint32_t *plan, size_t plan_length,
                              const uint32_t *position, size_t position_length,
                              uint32_t *answer, size_t answer_length);

/* Who owns the tile at a position of the hypercube layout, which has no plan list: p is 4 to the power e, with e from 0 to 6, and each of three
 * dimensions has 2 to the power e slabs. The owner of the tile at i1 i2 i3 has the code of i2 + i3 in its upper e bits and that of i1 + i3 in its
 * lower e bits, both sums modulo 2 to the power e; the code is the reflected Gray code, in which r becomes r ^ (r / 2). Refused with 2, 12 (p is not
 * a power of 4), 8 (not three coordinates, or one is not below 2 to the power e), 9. */
uint64_t multipartition_hypercube_owner(uint32_t processors,
                                        const uint32_t *position, size_t position_length,
                                        uint32_t *answer, size_t answer_length);

/* Who owns the tiles one step from a processor's tiles along a dimension: upward, or downward if `up` is 0. There is no neighbour where
 * the dimension is uncut. Refused with 6, 7, 8, 9. */
uint64_t multipartition_neighbour(const uint32_t *plan, size_t plan_length,
                                  uint32_t processor, uint32_t dimension, uint32_t up,
                                  uint32_t *answer, size_t answer_length);

/* Which elements of a dimension a slab holds. The first (extent modulo cut) slabs have one element more than the others: ten elements in 4 slabs
 * start at 0, 3, 6, 8. Refused with 6, 7, 8, 9. */
uint64_t multipartition_slab(const uint32_t *plan, size_t plan_length,
                             uint32_t dimension, uint32_t slab,
                             uint32_t *answer, size_t answer_length);

/* Which slab of a dimension holds an element. Refused with 6, 7, 8, 9. */
uint64_t multipartition_slab_of(const uint32_t *plan, size_t plan_length,
                                uint32_t dimension, uint32_t element,
                                uint32_t *answer, size_t answer_length);

/* Which slabs of a dimension hold the elements of a list, which rises: no element is smaller than the one before; equal neighbours are allowed, and
 * the list may be empty. The slabs go to the front of `slabs`, one for each element; its places past them keep their contents. All checks come before
 * the first write; then the call goes once along the elements and along the edges of the slabs up to the last element, so that a few elements in many
 * slabs are answered sooner one by one. Refused with 6, 7, 8 (any element out of range), 9 (`slabs` is shorter than `elements`), 14. A place above
 * 4,294,967,295 is given as 4,294,967,295. */
uint64_t multipartition_slabs_of(const uint32_t *plan, size_t plan_length,
                                 uint32_t dimension,
                                 const uint32_t *elements, size_t elements_length,
                                 uint32_t *slabs, size_t slabs_length);

/* A slab sheet for the job folder: writes one page, counted from 0, of the slabs of a dimension. A page has 50 lines of 72 columns, each with a newline
 * (byte 10) behind it; page n has the slabs from 50 * n on, one to a line, and behind the last slab it is filled up with blank lines. Every line starts
 * as blanks. Columns 1 to 6 hold the slab, 8 to 15 its first element, 17 to 24 the element after its last, 26 to 33 the tiles per processor,
 * all right-aligned; 35 to 72 hold the caption, the same on each slab's line, left-aligned. A caption byte outside 32 to 126 shows as a question mark,
 * so that a letter of several bytes shows as several, and a caption longer than 38 bytes is cut there; a 0 does not end it. Tiles per processor is
 * tiles / (cut * p), rounded down; it is exact for a list that multipartition_plan or multipartition_diagonal wrote. No 0 follows the page. Refused
 * with 6, 7, 8 (the page is past the one with the last slab), 9 (`sheet` has not MULTIPARTITION_SHEET_LENGTH bytes). */
uint64_t multipartition_slab_sheet(const uint32_t *plan, size_t plan_length,
                                   uint32_t dimension, uint32_t page,
                                   const uint8_t *caption, size_t caption_length,
                                   uint8_t *sheet, size_t sheet_length);

/* Which number the tile at a position has. The first dimension runs fastest: with cuts b1 b2 b3 .. the tile at i1 i2 i3 .. has the number
 * 1 + i1 + b1 * (i2 + b2 * (i3 + ..)). Refused with 6, 8, 9. */
uint64_t multipartition_tile_number(const uint32_t *plan, size_t plan_length,
                                    const uint32_t *position, size_t position_length,
                                    uint32_t *answer, size_t answer_length);

/* Which position a tile has. The answer list is a position. Refused with 6, 8, 9. */
uint64_t multipartition_tile_position(const uint32_t *plan, size_t plan_length,
                                      uint32_t tile,
                                      uint32_t *answer, size_t answer_length);

/* Which position lies one step along a dimension from a position: upward, or downward if `up` is 0. The answer list has
 * MULTIPARTITION_STEP_LENGTH(d) places. Refused with 6, 7, 8, 9. */
uint64_t multipartition_step(const uint32_t *plan, size_t plan_length,
                             const uint32_t *position, size_t position_length,
                             uint32_t dimension, uint32_t up,
                             uint32_t *answer, size_t answer_length);

/* What a processor does in one step of a sweep along a dimension: upward, or downward if `up` is 0. There are as many steps as slabs; step s visits
 * slab s going up, and slab cut - 1 - s going down. The processor receives from its neighbour against the sweep, works on its tiles of the slab, and
 * sends to its neighbour along the sweep; before step 0 it receives from nobody, and after the last step it sends to nobody. Either message has as
 * many elements as the faces of its tiles in this slab together; a tile's face is the product of its thicknesses, in elements, in the other
 * dimensions. Refused with 6, 7, 11, 8 (the step is not below the cut, or the processor not below p), 9.
 * A call takes about a microsecond on 4,096 processors with cuts 64 64 64, and at most some milliseconds for any plan list. */
uint64_t multipartition_timetable(const uint32_t *plan, size_t plan_length,
                                  uint32_t dimension, uint32_t up, uint32_t step, uint32_t processor,
                                  uint32_t *answer, size_t answer_length);

/* Which tiles each processor owns, as chains. `heads`, of p places, gets each processor's lowest tile, 0 if it has none; `nexts`, of one
 * place a tile, gets at place t - 1 the next higher tile of the owner of tile t, 0 at the chain's end. Refused with 6, 9.
 * `heads` is cleared first; then the tiles are visited from the highest down, and a place of `nexts` is written when its tile is visited.
 * A program that looks at the lists while the call runs may find some neighbouring tiles visited together, their heads not yet written. */
uint64_t multipartition_chains(const uint32_t *plan, size_t plan_length,
                               uint32_t *heads, size_t heads_length,
                               uint32_t *nexts, size_t nexts_length);

#ifdef __cplusplus
}
#endif

#endif
