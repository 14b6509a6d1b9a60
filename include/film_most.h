/* Most pictures for any film: the call film_most of libfilm_planner.a, for callers in C and C++.
 *
 * This header includes film_planner.h. What is said there of answers, slices, jobs, plans and threads
 * holds here too, with two exceptions: film_most asks for room for the longest result, and its work
 * slice may hold anything after an answer that is no refusal. The call takes up to 241 KiB of stack
 * (bench/run_stack measures it), the most of all calls. What is said below the words "Not promised"
 * is not proved.
 *
 * The call is no part of version 1 of film_planner.h. A program that uses it does not link with an
 * archive that lacks it. */
#ifndef FILM_MOST_H
#define FILM_MOST_H

#include "film_planner.h"

#if defined(__cplusplus) && defined(__GNUC__)
#pragma GCC diagnostic push
#pragma GCC diagnostic ignored "-Wold-style-cast"
#endif

#ifdef __cplusplus
extern "C" {
#endif

/* ---- the largest results, in elements of their slices */

enum {
    FILM_BOUNDS = 3,           /* in playing order, in any order, exact: of most pictures */
    FILM_MOST_WORK = 251001    /* scratch of film_most for any job: 501 rows of 501 numbers */
};

/* Looks for the largest set of bases that a fetch list in playing order can carry, plans over it,
 * and says how many bases no fetch list can exceed. It is for any film, equal or uneven, and any
 * limit.
 *
 * Parameters:
 *   passes  at most so many passes; each looks for one number of bases, from the bound down
 *   work    scratch, at least 501 * (C + 1) numbers; FILM_MOST_WORK are enough for any job. It may
 *           hold anything before the call, and what it holds afterwards means nothing
 *   marks, row_slots, row_chunks, row_layers, row_bytes, counts
 *           the plan: at least C marks, FILM_ROWS of each part of a row, and four counts
 *   bounds  three numbers:
 *           [0] no passing list in playing order carries more bases
 *           [1] no passing list in any order carries more bases
 *           [2] 1 if the plan carries as many bases as [0], else 0
 *
 * Returns the number of rows, at most FILM_ROWS. With the marks, whose bit 0 is the set of bases,
 * they pass film_check and are in playing order. Upper layers, rows and counts follow document 01,
 * as after film_search.
 *
 * Refuses: 5, 6, 18, 7, 11. Which set is found is not fixed, so 11 does not depend on it: it is
 * returned if a slice is shorter than said above.
 *
 * Notes:
 *   - counts[0] is at least that of film_plan, and at most bounds[0] and bounds[1]. If bases have
 *     one size, or H is at least C, film_plan's count and these three are equal.
 *   - If bounds[2] is 1, no list in playing order shows more pictures. If counts[0] is bounds[1],
 *     no list in any order does. Else the bounds say how many more there could be at most.
 * Not promised:
 *   - With 0 passes and H at least 2, the bases are those of film_plan. If H is 0 or 1, no pass is
 *     needed and bounds[2] is 1.
 *   - Films with the sizes and links of practice mostly need 0 to 2 passes, and 16 are plenty. On
 *     500 chunks the bounds take about a millisecond and a pass up to a few hundredths of a second.
 *     Nothing stops the call on the way, so `passes` limits its time. */
FILM_CALL film_most(
    uint16_t chunks, uint16_t span, uint16_t delay, uint16_t limit,
    const uint32_t *sizes, size_t sizes_len,
    const uint16_t *size_chunks, size_t size_chunks_len,
    const uint8_t *size_layers, size_t size_layers_len,
    const uint32_t *size_bytes, size_t size_bytes_len,
    const uint32_t *forecast, size_t forecast_len,
    uint32_t passes,
    uint64_t *work, size_t work_len,
    uint8_t *marks, size_t marks_len,
    uint16_t *row_slots, size_t row_slots_len,
    uint16_t *row_chunks, size_t row_chunks_len,
    uint8_t *row_layers, size_t row_layers_len,
    uint32_t *row_bytes, size_t row_bytes_len,
    uint16_t *counts, size_t counts_len,
    uint16_t *bounds, size_t bounds_len);

/* ---- the inline layer: the call by its name with _of behind, over structs. It is not proved and
 * does little, as that of film_planner.h. */

/* How many bases no passing list can exceed. */
struct film_bounds {
    uint16_t in_order, any_order; /* in playing order; in any order */
    uint16_t exact;               /* 1 if the plan carries in_order bases, else 0 */
};

#define FILM_AT(type, at, length) ((length) ? (at) : (type *)film_none)
#define FILM_SLICE(type, at, length) FILM_AT(type, at, length), (length)
#define FILM_JOB(j) \
    (j)->chunks, (j)->span, (j)->delay, (j)->limit, \
    FILM_SLICE(const uint32_t, (j)->sizes, (j)->layers), \
    FILM_SLICE(const uint16_t, (j)->size_chunks, (j)->szs), \
    FILM_SLICE(const uint8_t, (j)->size_layers, (j)->szs), \
    FILM_SLICE(const uint32_t, (j)->size_bytes, (j)->szs), \
    FILM_SLICE(uint32_t, (j)->forecast, (j)->slots)
#define FILM_ROOM(l) \
    (l)->slots, FILM_FILE_ROWS, (l)->chunks, FILM_FILE_ROWS, (l)->layers, FILM_FILE_ROWS, \
    (l)->bytes, FILM_FILE_ROWS

/* The work slice is the caller's: 2 MB for the largest job. Of a job of C chunks the call needs
 * 501 * (C + 1) numbers, and refuses with 11 if there are fewer. */
static inline FILM_ANSWER film_most_of(
    const struct film_job *job, uint32_t passes, uint64_t *work, size_t work_len,
    struct film_plan *plan, struct film_bounds *bounds)
{
    uint16_t said[FILM_BOUNDS];
    uint64_t answer = film_most(FILM_JOB(job), passes, FILM_SLICE(uint64_t, work, work_len),
        plan->marks, FILM_MARKS, FILM_ROOM(&plan->list), plan->counts, FILM_COUNTS,
        said, FILM_BOUNDS);
    if (film_refused(answer)) return answer;
    plan->list.rows = (size_t)answer;
    bounds->in_order = said[0];
    bounds->any_order = said[1];
    bounds->exact = said[2];
    return answer;
}

#undef FILM_AT
#undef FILM_SLICE
#undef FILM_JOB
#undef FILM_ROOM

#ifdef __cplusplus
}
#endif

#if defined(__cplusplus) && defined(__GNUC__)
#pragma GCC diagnostic pop
#endif

#endif
