/* A desk during the act, in one page: in each second it asks film_live what to fetch next, fetches
 * as far as the link goes, and writes down what came. The link is a trace, of which the desk sees
 * only what it brings. Prints a line a slot, then what was shown, beside the plan that knew the
 * link beforehand. docs/LIVE.md tells the loop in words. examples/run builds and runs it. */
#include "film_planner.h"
#include <inttypes.h>
#include <stdio.h>
#include <stdlib.h>

/* The film: 12 chunks of 2 seconds in three layers, 3 of them held at most. */
enum { CHUNKS = 12, SPAN = 2, DELAY = 4, LIMIT = 6, LAYERS = 3 };
enum { SLOTS = (CHUNKS - 1) * SPAN + DELAY, SLOT_MOST = 16777216 };
static const uint32_t sizes[LAYERS] = {6000, 3000, 4500};
static uint32_t link_carries[SLOTS], gone[SLOTS];

/* In each slot at most one piece is cut short, and each piece ends once: there is room for all. */
static struct film_list rows;
static struct film_pieces pieces;

static uint64_t must(const char *what, uint64_t answer)
{
    uint32_t refusal = film_refused(answer);
    if (!refusal) return answer;
    fprintf(stderr, "%s refused %" PRIu32 ": %s\n", what, refusal, film_sentence(refusal));
    exit(1);
}

static uint32_t most(uint32_t a, uint32_t b) { return a < b ? b : a; }
static uint32_t least(uint32_t a, uint32_t b) { return a < b ? a : b; }

/* The meter's forecast, or its last sample where that is more: one slot far below the others holds
 * the forecast down for ten samples. Before the first sample the most that a slot can bring, by
 * which nothing is passed over. */
static uint32_t rate_of(const struct film_meter *m)
{
    uint64_t forecast = film_meter_forecast_of(m);
    return film_refused(forecast) ? SLOT_MOST : most((uint32_t)forecast, m->bytes[m->kept[0] - 1]);
}

/* The asks of a slot. Where the rate asks for no base, a chunk may be passed over for one that
 * cannot begin yet: then the slot goes to the first one. With few places on a slow link one thing
 * more is worth doing, and the Rust type Act does it: docs/LIVE.md, "A place kept by a chunk that
 * cannot come". */
static void ask(const struct film_job *job, uint16_t slot, uint32_t rate)
{
    for (;; rate = SLOT_MOST) {
        must("the asks are", film_live_of(job, slot, &rows, rate, &pieces));
        if (rate == SLOT_MOST || (pieces.pieces && pieces.layers[0] == 0)) return;
    }
}

/* The meter has to say what the link carries. A slot without bytes is not handed: one zero among
 * ten samples makes the forecast 0. Nor is one in which all asks came, unless it brought more than
 * the rate: it tells only that the link carries at least so much. */
static void sample(
    struct film_meter *m, uint16_t slot, uint32_t came, uint32_t asked, uint32_t rate)
{
    if (came && (came < asked || came > rate))
        must("the sample is", film_meter_take_of(m, slot, came));
}

/* What the link brings of the asks, one after the other, as rows of the slot. */
static void fetch(uint16_t slot, uint32_t came)
{
    for (size_t k = 0; k < pieces.pieces && came; k++) {
        uint32_t part = least(came, pieces.bytes[k]);
        if (!film_push(&rows, slot, pieces.chunks[k], pieces.layers[k], part)) exit(1);
        came -= part;
        printf("%s %u.%u %" PRIu32, k ? "," : ":", pieces.chunks[k], pieces.layers[k], part);
    }
}

static void run_slot(struct film_job *job, struct film_meter *meter, uint16_t slot)
{
    uint32_t rate = rate_of(meter), asked = 0;
    ask(job, slot, rate);
    /* No forecast says more than SLOT_MOST of a slot, so no more is asked in one. */
    for (size_t k = 0; k < pieces.pieces; k++) {
        pieces.bytes[k] = least(pieces.bytes[k], SLOT_MOST - asked);
        asked += pieces.bytes[k];
    }
    uint32_t came = least(asked, link_carries[slot - 1]);
    printf("slot %u rate %" PRIu32 " asked %" PRIu32 " came %" PRIu32, slot, rate, asked, came);
    fetch(slot, came);
    printf("\n");
    /* The slot is gone: its forecast says what it brought, or the next call would refuse by 22. */
    job->forecast[slot - 1] = came;
    sample(meter, slot, came, asked, rate);
}

/* A mark byte a chunk, of the layers whole; and the rows without those of the last slot whose layer
 * stays short, since the second checker call allows a short sum only before its slot. */
static void end(struct film_plan *act)
{
    uint32_t got[CHUNKS][LAYERS] = {{0}};
    for (size_t k = 0; k < rows.rows; k++) got[rows.chunks[k] - 1][rows.layers[k]] += rows.bytes[k];
    for (int i = 0; i < CHUNKS; i++)
        for (int n = act->marks[i] = 0; n < LAYERS; n++)
            if (got[i][n] == sizes[n]) act->marks[i] = (uint8_t)(act->marks[i] | 1 << n);
    for (size_t k = 0; k < rows.rows; k++) {
        uint16_t slot = rows.slots[k], chunk = rows.chunks[k];
        uint8_t layer = rows.layers[k];
        if (slot == SLOTS && !(act->marks[chunk - 1] >> layer & 1)) continue;
        if (!film_push(&act->list, slot, chunk, layer, rows.bytes[k])) exit(1);
    }
}

static void tell(const char *who, const struct film_plan *plan)
{
    printf("%s: marks", who);
    for (int i = 0; i < CHUNKS; i++) printf(" %u", plan->marks[i]);
    printf(", pictures %" PRIu64 " of %d\n", film_count_marks_of(plan->marks, CHUNKS, 0), CHUNKS);
}

int main(int argc, char **argv)
{
    static uint8_t trace[65536];
    FILE *in = fopen(argc > 1 ? argv[1] : "samples/link.trace", "rb");
    size_t length = in ? fread(trace, 1, sizeof trace, in) : 0;
    if (in) fclose(in);
    must("the trace is", film_read_trace_of(trace, length, SLOTS, link_carries, SLOTS));

    struct film_job job = {.chunks = CHUNKS, .span = SPAN, .delay = DELAY, .limit = LIMIT,
                           .sizes = sizes, .layers = LAYERS, .forecast = gone, .slots = SLOTS};
    struct film_meter meter;
    film_meter_new_of(&meter);
    for (uint16_t slot = 1; slot <= SLOTS; slot++) run_slot(&job, &meter, slot);

    static struct film_plan act, plan;
    end(&act);
    tell("act", &act);
    uint64_t verdict = must("the check is", film_check_from_of(&job, SLOTS, &act));
    printf("verdict at slot %d: %" PRIu64 "\n", SLOTS, verdict);

    job.forecast = link_carries;
    must("the plan is", film_plan_of(&job, &plan));
    tell("the plan that knew the link", &plan);
    return 0;
}
