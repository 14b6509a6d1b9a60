// Planning afresh in plain C: the rows fetched are tallied, chunks that play after all begun ones
// are settled from the last down, then the begun ones, then each layer above; the rest is listed.
#include "plan.h"
#include "fetched.h"

// The forecast from p on after each due slot, by chunk, and in whole. Answers the first chunk (from
// 0) that is due in p or later.
static uint32_t set_sums_from(uint32_t chunks, uint32_t span, uint32_t delay, uint32_t from, const uint32_t *onward,
    struct settled *s)
{
    uint64_t sum = 0;
    uint32_t i = chunks, to = (chunks - 1) * span + delay;
    while (i && (i - 1) * span + delay >= from) {
        i--;
        uint32_t back = i && to - span >= from ? to - span : from - 1;
        s->after[i] = sum;
        for (uint32_t t = back; t < to; t++) sum += onward[t + 1 - from];
        to = back;
    }
    s->total = sum;
    return i;
}

static void keep_at(
    struct settled *s, uint32_t p, uint32_t i, uint32_t due, uint32_t bytes, uint32_t level, uint64_t from)
{
    s->id[p] = i + 1;
    s->due[p] = due;
    s->level[p] = level;
    s->bytes[p] = bytes;
    s->behind[p] = s->after[i];
    s->from[p] = from;
}

// Chunks from `next` on, which play after all begun ones, from the last down. A need that comes to
// stand H places behind a begun chunk must be at most the forecast from that chunk's due slot on
// (caps, at the end of its table from fb on): g is the first place whose cap is below the least
// need so far, and least the first place that may still be kept.
static uint64_t keep_new(uint32_t chunks, uint32_t span, uint32_t delay, uint32_t from, const uint32_t *onward,
    const uint32_t *left, int next, const uint64_t *caps, int fb, struct settled *s)
{
    uint64_t needs[2 * CHUNKS], need = 0, roof = ~(uint64_t)0, total = s->total;
    int held = less(s->held, CHUNKS), p = CHUNKS, least = 0, g = CHUNKS, back = CHUNKS - held;
    if (back >= fb && fb < CHUNKS) roof = caps[less(back, CHUNKS - 1)];
    memset(needs + CHUNKS, 0, held * sizeof *needs);
    for (int i = chunks; i-- > next;) {
        uint32_t due = i * span + delay;
        uint64_t open = s->after[i] + onward[due - from], tried = left[4 * i] + more(s->after[i], need);
        int q = p - 1;
        needs[q] = tried;
        if (tried > total || q < least || tried > roof || needs[q + held] > open) continue;
        while (g > fb && caps[g - 1] < tried) g--;
        if (g < CHUNKS && q + CHUNKS + 1 - g - held > least) least = q + CHUNKS + 1 - g - held;
        keep_at(s, q, i, due, left[4 * i], 1, open);
        need = tried;
        p = q;
    }
    s->first = p;
    return need;
}

// The begun chunks at the end of their table, from the last down: each keeps its place, and its
// base is ended if that can be.
static void keep_begun(uint32_t span, uint32_t delay, const struct fetched *f, const uint16_t *front,
    const uint64_t *caps, int fb, uint64_t need, struct settled *s)
{
    uint32_t p = s->first;
    for (int r = CHUNKS - 1; r >= fb; r--) {
        uint32_t i = front[r], bytes = f->left[4 * i], level = f->level[i];
        need = more(s->after[i], need);
        if (level || need + bytes > s->total)
            bytes = 0;
        else
            level = 1;
        need += bytes;
        keep_at(s, --p, i, i * span + delay, bytes, level, caps[r]);
    }
    s->first = p;
}

static size_t fill_rest(const struct settled *s, uint32_t from, const uint32_t *onward, const uint32_t *left_of,
    uint16_t *restrict row_slots, uint16_t *restrict row_chunks, uint8_t *restrict row_layers,
    uint32_t *restrict row_bytes)
{
    size_t rows = 0;
    uint32_t t = from, left = onward[0], first = s->first, held = s->held;
    const uint32_t *by_slot = onward - from;
    for (uint32_t q = first; q < CHUNKS; q++) {
        uint32_t i = s->id[q], level = s->level[q], ready = q - first < held ? from : s->due[q - held];
        const uint32_t *size = left_of + 4 * (i - 1);
        for (uint32_t n = 0; n < level; n++) {
            uint32_t lacking = size[n];
            if (!lacking) continue;
            if (t < ready) left = by_slot[t = ready];
            while (lacking > left) {
                row_slots[rows] = t;
                row_chunks[rows] = i;
                row_layers[rows] = n;
                row_bytes[rows] = left;
                rows += left != 0; // a slot that is spent has no row
                lacking -= left;
                left = by_slot[++t];
            }
            row_slots[rows] = t;
            row_chunks[rows] = i;
            row_layers[rows] = n;
            row_bytes[rows++] = lacking;
            left -= lacking;
        }
    }
    return rows;
}

static void settle_from(
    JOB_PARAMETERS, uint32_t from, const struct fetched *f, const uint32_t *onward, struct settled *s)
{
    (void)sizes, (void)size_chunks, (void)size_layers, (void)size_bytes, (void)forecast, (void)slots;
    (void)size_chunks_len, (void)size_layers_len, (void)size_bytes_len;
    uint16_t front[CHUNKS];
    uint64_t caps[CHUNKS];
    uint32_t live = set_sums_from(chunks, span, delay, from, onward, s), next = chunks, fb = CHUNKS;
    while (next > live && f->begun[next - 1] == NEVER) next--;
    for (uint32_t i = next; i-- > live;) {
        if (f->begun[i] == NEVER) continue;
        front[--fb] = i;
        caps[fb] = s->after[i] + onward[i * span + delay - from];
    }
    s->held = limit / span;
    s->size = f->left;
    s->stride = 4;
    uint64_t need = keep_new(chunks, span, delay, from, onward, f->left, next, caps, fb, s);
    keep_begun(span, delay, f, front, caps, fb, need, s);
    for (size_t n = 1; n < layers; n++) keep_layer(n, s);
}

uint64_t plain_replan(JOB_PARAMETERS, FETCHED_PARAMETERS, const uint32_t *onward, size_t onward_len, PLAN_PARAMETERS)
{
    struct fetched f;
    struct settled s;
    uint32_t number = job_refusal(JOB_ARGUMENTS);
    if (number) return refuse(number);
    number = rows_refusal(slots, FETCHED_ARGUMENTS);
    if (number) return refuse(number);
    if (onward_len != slots - from + 1 || bad_bytes(onward, onward_len)) return refuse(7);
    if (!take_fetched(JOB_ARGUMENTS, FETCHED_ARGUMENTS, &f)) return refuse(22);
    if (marks_len < chunks || counts_len < FILM_COUNTS) return refuse(11);
    settle_from(JOB_ARGUMENTS, from, &f, onward, &s);
    size_t rows, room = less(less(out_slots_len, out_chunks_len), less(out_layers_len, out_bytes_len));
    if (room >= FILM_ROWS) {
        rows = fill_rest(&s, from, onward, f.left, out_slots, out_chunks, out_layers, out_bytes);
    } else {
        uint16_t t[FILM_ROWS], i[FILM_ROWS];
        uint8_t n[FILM_ROWS];
        uint32_t b[FILM_ROWS];
        rows = fill_rest(&s, from, onward, f.left, t, i, n, b);
        if (room < rows) return refuse(11);
        memcpy(out_slots, t, rows * sizeof *t);
        memcpy(out_chunks, i, rows * sizeof *i);
        memcpy(out_layers, n, rows);
        memcpy(out_bytes, b, rows * sizeof *b);
    }
    for (uint32_t q = s.first; q < CHUNKS; q++) f.level[s.id[q] - 1] = s.level[q];
    memset(counts, 0, FILM_COUNTS * sizeof *counts);
    for (uint32_t i = 0; i < chunks; i++) {
        uint32_t level = f.level[i];
        marks[i] = (1 << level) - 1;
        for (uint32_t n = 0; n < level; n++) counts[n]++;
    }
    return rows;
}
