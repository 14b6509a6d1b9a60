/* Shows the most pictures: uneven film in a small buffer, where the plan skips pictures that another
 * fetch list shows. Prints how many the plan and the search show, and how many no list can exceed.
 * examples/run runs it. */
#include "film_most.h"
#include <inttypes.h>
#include <stdio.h>
#include <stdlib.h>

enum { CHUNKS = 8, PASSES = 16 };
static const uint32_t sizes[] = {2};
static const uint16_t size_chunks[] = {3, 5, 7, 8};
static const uint8_t size_layers[] = {0, 0, 0, 0};
static const uint32_t size_bytes[] = {6, 6, 6, 3};
static uint32_t forecast[] = {4, 1, 3, 0, 3, 1, 0, 4, 1};

static struct film_plan plan, most;
static struct film_bounds bounds;
/* Scratch of the search, for a job of so many chunks; FILM_MOST_WORK is enough for any. */
static uint64_t work[501 * (CHUNKS + 1)];

/* A result, or the refusal in the documents' words and the end. */
static uint64_t must(uint64_t answer)
{
    uint32_t refusal = film_refused(answer);
    if (!refusal) return answer;
    fprintf(stderr, "refused %" PRIu32 ": %s\n", refusal, film_sentence(refusal));
    exit(1);
}

int main(void)
{
    struct film_job job = {.chunks = CHUNKS, .span = 1, .delay = 2, .limit = 3, .sizes = sizes,
                           .layers = 1, .size_chunks = size_chunks, .size_layers = size_layers,
                           .size_bytes = size_bytes, .szs = 4, .forecast = forecast, .slots = 9};
    must(film_plan_of(&job, &plan));
    must(film_most_of(&job, PASSES, work, sizeof work / sizeof *work, &most, &bounds));
    printf("the plan shows %u of %u pictures\n", plan.counts[0], job.chunks);
    printf("the search shows %u, verdict %" PRIu64 "\n", most.counts[0],
           must(film_check_of(&job, &most)));
    if (most.counts[0] == bounds.any_order) printf("no fetch list shows more\n");
    else if (bounds.exact) printf("no fetch list in playing order shows more\n");
    else printf("a fetch list in playing order shows at most %u\n", bounds.in_order);
    return 0;
}
