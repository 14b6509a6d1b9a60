/* A changed link: a film is planned on a link of 30 bytes a slot and fetched as planned until the
 * link falls. From the last slots' samples the meter forecasts the rest, the film is planned afresh
 * over the rows fetched, and both together are judged. examples/run runs it. */
#include "film_planner.h"
#include <inttypes.h>
#include <stdio.h>
#include <stdlib.h>

enum { CHUNKS = 8, SPAN = 2, DELAY = 3, LIMIT = 6, LAYERS = 2 };
enum { SLOTS = (CHUNKS - 1) * SPAN + DELAY, STEADY = 30, FALLS = 7, FALLEN = 9, SEEN = 3 };
static const uint32_t sizes[LAYERS] = {40, 20};
static uint32_t forecast[SLOTS], onward[SLOTS];
static struct film_plan plan, afresh;
static struct film_list fetched;

static uint64_t must(const char *what, uint64_t answer)
{
    uint32_t refusal = film_refused(answer);
    if (!refusal) return answer;
    fprintf(stderr, "%s refused %" PRIu32 ": %s\n", what, refusal, film_sentence(refusal));
    exit(1);
}

static void tell(const char *what, const struct film_plan *p)
{
    printf("%s: marks", what);
    for (int i = 0; i < CHUNKS; i++) printf(" %u", p->marks[i]);
    printf(", pictures %u of %d, %zu rows\n", p->counts[0], CHUNKS, p->list.rows);
}

/* The plan's rows before a slot, as far as the link carried them. */
static void fetch(uint16_t slot, uint32_t carries)
{
    uint32_t left = carries;
    for (size_t k = 0; k < plan.list.rows; k++) {
        if (plan.list.slots[k] != slot || !left) continue;
        uint32_t part = plan.list.bytes[k] < left ? plan.list.bytes[k] : left;
        if (!film_push(&fetched, slot, plan.list.chunks[k], plan.list.layers[k], part)) exit(1);
        left -= part;
    }
    printf("slot %u carries %" PRIu32 ", brought %" PRIu32 "\n", slot, carries, carries - left);
    /* What a slot that is gone could carry. */
    forecast[slot - 1] = carries;
}

int main(void)
{
    struct film_job job = {.chunks = CHUNKS, .span = SPAN, .delay = DELAY, .limit = LIMIT,
                           .sizes = sizes, .layers = LAYERS, .forecast = forecast, .slots = SLOTS};
    for (int t = 0; t < SLOTS; t++) forecast[t] = STEADY;
    must("the plan is", film_plan_of(&job, &plan));
    tell("planned", &plan);

    struct film_meter meter;
    film_meter_new_of(&meter);
    uint16_t slot = 1;
    for (; slot < FALLS + SEEN; slot++) {
        uint32_t carries = slot < FALLS ? STEADY : FALLEN;
        fetch(slot, carries);
        must("the sample is", film_meter_take_of(&meter, slot, carries));
    }
    uint32_t rate = (uint32_t)must("the forecast is", film_meter_forecast_of(&meter));
    printf("the meter forecasts %" PRIu32 " from slot %u on\n", rate, slot);

    /* Slot p is the next one; the forecast from it on has d(C) - p + 1 slots. */
    size_t rest = SLOTS - slot + 1u;
    for (size_t t = 0; t < rest; t++) onward[t] = rate;
    must("the plan afresh is", film_replan_of(&job, slot, &fetched, onward, rest, &afresh));
    tell("planned afresh", &afresh);
    printf("beside the first plan it carries %s\n",
           film_compare_of(&afresh, &plan) == FILM_FEWER ? "fewer" : "no fewer");

    /* What passes is the rows fetched and those from p on, on the joined forecast. */
    if (!film_append(&fetched, &afresh.list)) exit(1);
    afresh.list = fetched;
    for (size_t t = 0; t < rest; t++) forecast[slot - 1u + t] = onward[t];
    printf("verdict at slot %u: %" PRIu64 "\n", slot,
           must("the check is", film_check_from_of(&job, slot, &afresh)));
    return 0;
}
