// What to fetch next in plain C: the rows fetched are tallied, then one scan back for the open
// chunks, one for the chunks passed over and one for those asked.
#include "fetched.h"

struct now {
    uint32_t chunks, span, delay, held, slot, rate;
    uint8_t open[CHUNKS], asked[CHUNKS];
};

static uint32_t due_of(const struct now *w, uint32_t i) { return i * w->span + w->delay; }

// Due in the slot or later, and begun or not overtaken by one that is.
static void set_open(struct now *w, const uint16_t *begun)
{
    int overtaken = 0;
    for (uint32_t i = w->chunks; i--;) {
        int is_begun = begun[i] != NEVER;
        w->open[i] = due_of(w, i) >= w->slot && (is_begun || !overtaken);
        overtaken |= is_begun;
    }
}

static uint64_t brings(const struct now *w, uint32_t i)
{
    return (uint64_t)w->rate * (due_of(w, i) - w->slot + 1);
}

// The first open chunk that lacks base bytes, and where the chunks passed over from it on end.
static uint32_t passed_until(const struct now *w, const uint32_t *left, uint32_t *first)
{
    uint32_t k = 0, near = w->held;
    while (k < w->chunks && !(w->open[k] && left[4 * k])) k++;
    *first = k;
    if (k == w->chunks || left[4 * k] <= brings(w, k)) return 0;
    for (uint32_t i = k + 1; i < w->chunks; i++) {
        if (!w->open[i]) continue;
        if (near-- == 0) return 0;
        uint64_t missing = left[4 * i], due = brings(w, i);
        if (missing && missing <= due) return left[4 * k] + missing > due ? i : 0;
    }
    return 0;
}

static void set_asked(struct now *w, const struct fetched *f, uint32_t first, uint32_t until)
{
    uint32_t held = 0;
    for (uint32_t i = 0; i < w->chunks; i++) held += f->begun[i] != NEVER && due_of(w, i) > w->slot;
    for (uint32_t i = 0; i < w->chunks; i++) {
        int passed = first <= i && i < until && f->left[4 * i];
        int line = w->open[i] && !passed;
        int fresh = line && f->begun[i] == NEVER && due_of(w, i) > w->slot;
        held += fresh;
        w->asked[i] = line && (!fresh || held <= w->held);
    }
}

uint64_t plain_live(JOB_PARAMETERS, FETCHED_PARAMETERS, uint32_t rate, uint16_t *piece_chunks, size_t piece_chunks_len,
    uint8_t *piece_layers, size_t piece_layers_len, uint32_t *piece_bytes, size_t piece_bytes_len)
{
    struct fetched f;
    struct now w;
    uint32_t first, until, pieces = 0, rows = 0, number = job_refusal(JOB_ARGUMENTS);
    if (number) return refuse(number);
    number = rows_refusal(slots, FETCHED_ARGUMENTS);
    if (number) return refuse(number);
    if (!take_fetched(JOB_ARGUMENTS, FETCHED_ARGUMENTS, &f)) return refuse(22);
    w.chunks = chunks, w.span = span, w.delay = delay, w.held = limit / span, w.slot = from, w.rate = rate;
    set_open(&w, f.begun);
    until = passed_until(&w, f.left, &first);
    set_asked(&w, &f, first, until);
    for (uint32_t i = 0; i < chunks; i++)
        for (size_t n = 0; w.asked[i] && n < layers; n++) pieces += f.left[4 * i + n] != 0;
    if (piece_chunks_len < pieces || piece_layers_len < pieces || piece_bytes_len < pieces) return refuse(11);
    for (size_t n = 0; n < layers; n++)
        for (uint32_t i = 0; i < chunks; i++) {
            uint32_t bytes = f.left[4 * i + n];
            if (!w.asked[i] || !bytes) continue;
            piece_chunks[rows] = i + 1;
            piece_layers[rows] = n;
            piece_bytes[rows++] = bytes;
        }
    return pieces;
}
