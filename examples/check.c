/* Judges fetch lists: job A of document 01 set up by hand, a list that passes, lists that break a
 * rule, and a job that is refused. examples/run runs it. */
#include "film_planner.h"
#include <inttypes.h>
#include <stdio.h>
#include <stdlib.h>

enum { CHUNKS = 3 };
static const uint32_t sizes[] = {2, 1};
static uint32_t forecast[] = {3, 0, 1, 0, 2, 0};

struct row {
    uint16_t slot, chunk;
    uint8_t layer;
    uint32_t bytes;
};
static const struct row own[] = {{1, 2, 0, 2}, {1, 2, 1, 1}, {5, 3, 0, 2}};
static const struct row rich[] = {{3, 3, 0, 2}};
static const struct row late[] = {{5, 2, 0, 2}};

static struct film_plan plan;

static void judge(const char *what, const struct film_job *job, const char marks[CHUNKS + 1],
                  const struct row *rows, size_t n)
{
    for (size_t i = 0; i < CHUNKS; i++) plan.marks[i] = (uint8_t)(marks[i] - '0');
    plan.list.rows = 0;
    for (const struct row *r = rows; r < rows + n; r++)
        if (!film_push(&plan.list, r->slot, r->chunk, r->layer, r->bytes)) exit(1);

    uint64_t answer = film_check_of(job, &plan);
    uint32_t refusal = film_refused(answer);
    if (refusal) printf("%s: refused %" PRIu32 ", %s\n", what, refusal, film_sentence(refusal));
    else if (answer) printf("%s: breaks rule %" PRIu64 "\n", what, answer);
    else printf("%s: passes\n", what);
}

int main(void)
{
    /* Of equal chunks, so nothing is said of SZs. */
    struct film_job job = {.chunks = CHUNKS, .span = 2, .delay = 2, .limit = 2, .sizes = sizes,
                           .layers = 2, .forecast = forecast, .slots = 6};
    judge("the plan's own list", &job, "031", own, 3);
    judge("a mark that says less", &job, "030", own, 3);
    judge("two bytes in slot 3, which carries one", &job, "001", rich, 1);
    judge("chunk 2 after slot 4, in which it is due", &job, "010", late, 1);
    job.slots = 5;
    judge("a forecast one slot short", &job, "031", own, 3);
    return 0;
}
