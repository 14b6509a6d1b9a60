// The search within a budget in plain C: the walk without recursion, since the kept chunks are
// their own stack, then the layers above the best set and its rows.
#include "plan.h"

struct walk {
    uint32_t left, ended;
    size_t most;
    uint16_t best[CHUNKS]; // at the end
};

// By chunk, from 1: base, forecast after its due slot and from it on.
struct bases {
    uint64_t size[CHUNKS + 1], after[CHUNKS + 1], from[CHUNKS + 1];
};

static void search(uint32_t chunks, size_t held, uint64_t total, const struct bases *b, struct walk *w)
{
    uint64_t needs[2 * CHUNKS + 1];
    uint16_t kept[CHUNKS];
    uint32_t i = chunks, left = w->left;
    size_t k = CHUNKS, least = CHUNKS;
    memset(needs + CHUNKS, 0, (CHUNKS + 1) * sizeof *needs);
    for (;;) {
        while (i) {
            if (!left--) goto cut;
            uint64_t need = b->size[i] + more(b->after[i], needs[k]);
            needs[k - 1] = need;
            if (need <= total && needs[k - 1 + held] <= b->from[i]) {
                kept[--k] = i--;
                if (k >= least) continue;
                least = k;
                memcpy(w->best + k, kept + k, (CHUNKS - k) * sizeof *kept);
            } else {
                if (!left--) goto cut;
                i--;
            }
        }
        if (k == CHUNKS) break;
        if (!left--) goto cut;
        i = kept[k++] - 1;
    }
    w->ended = 1;
    w->left = left;
    w->most = CHUNKS - least;
    return;
cut:
    w->ended = 0;
    w->left = 0;
    w->most = CHUNKS - least;
}

uint64_t plain_search(JOB_PARAMETERS, uint32_t budget, PLAN_PARAMETERS, uint32_t *walk, size_t walk_len)
{
    struct settled s;
    struct walk w = {.left = budget};
    struct bases b;
    uint32_t number = job_refusal(JOB_ARGUMENTS), short_by = 0;
    if (number) return refuse(number);
    if (marks_len < chunks || counts_len < FILM_COUNTS || walk_len < FILM_WALK) return refuse(11);
    begin(JOB_ARGUMENTS, &s);
    for (uint32_t i = 1; i <= chunks; i++) {
        b.size[i] = s.size[s.stride * (i - 1)];
        b.after[i] = s.after[i - 1];
        b.from[i] = s.after[i - 1] + forecast[(i - 1) * span + delay - 1];
    }
    search(chunks, less(s.held, CHUNKS), s.total, &b, &w);
    if (!w.ended) {
        keep_most(chunks, span, delay, forecast, &s);
        short_by = CHUNKS - s.first - w.most;
    }
    s.first = CHUNKS - w.most;
    for (uint32_t q = s.first; q < CHUNKS; q++) {
        uint32_t i = w.best[q];
        keep(&s, q, i, (i - 1) * span + delay, b.size[i], forecast);
    }
    keep_layers(layers, &s);
    uint64_t rows = list_plan(&s, chunks, forecast, PLAN_ARGUMENTS);
    if (film_refused(rows)) return rows;
    walk[0] = budget - w.left;
    walk[1] = w.ended;
    walk[2] = short_by;
    return rows;
}
