// A plan and its check by the calls themselves or by the header's inline layer, on job A and on the
// largest even job, so that what the layer costs can be counted. Prints rows and verdict.
#include "film_planner.h"
#include <inttypes.h>
#include <stdio.h>

static uint32_t forecast[FILM_SLOTS] = {3, 0, 1, 0, 2, 0};
static const uint32_t small[] = {2, 1}, large[] = {9000, 7000, 5000, 4000};
static struct film_plan plan;

#define JOB(j) (j)->chunks, (j)->span, (j)->delay, (j)->limit, (j)->sizes, (j)->layers, (j)->size_chunks, (j)->szs, (j)->size_layers, (j)->szs, (j)->size_bytes, (j)->szs, (j)->forecast, (j)->slots
#define ROWS(l, n) (l).slots, n, (l).chunks, n, (l).layers, n, (l).bytes, n

__attribute__((noinline)) uint64_t by_calls(const struct film_job *job)
{
    plan.list.rows = film_plan(JOB(job), plan.marks, FILM_MARKS, ROWS(plan.list, FILM_FILE_ROWS), plan.counts, FILM_COUNTS);
    return film_check(JOB(job), plan.marks, job->chunks, ROWS(plan.list, plan.list.rows));
}

__attribute__((noinline)) uint64_t by_layer(const struct film_job *job)
{
    if (film_refused(film_plan_of(job, &plan))) return 9;
    return film_check_of(job, &plan);
}

int main(int argc, char **argv)
{
    static const uint16_t chunks[1];
    static const uint8_t layers[1];
    int largest = argc > 2 && argv[2][0] == 'l';
    struct film_job job = {3, 2, 2, 2, small, 2, chunks, layers, small, 0, forecast, 6};
    if (largest) {
        job = (struct film_job){500, 7, 107, 28, large, 4, chunks, layers, large, 0, forecast, FILM_SLOTS};
        for (uint32_t t = 0; t < FILM_SLOTS; t++) forecast[t] = t * 7919 % 6000;
    }
    uint64_t verdict = argc > 1 && argv[1][0] == 'c' ? by_calls(&job) : by_layer(&job);
    printf("rows %zu verdict %" PRIu64 "\n", plan.list.rows, verdict);
    return 0;
}
