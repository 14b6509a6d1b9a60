// The planner of documents 01 and 02 in plain C: two linear passes a layer and one fill. Sums of
// the forecast are kept at due slots alone, film of equal chunks has no table of sizes, rows go
// straight to the lent slices if these have room for any plan, and a heap finds the largest kept
// base.
#include "plan.h"

static void set_sums(uint32_t chunks, uint32_t span, uint32_t delay, const uint32_t *forecast, struct settled *s)
{
    uint64_t sum = 0;
    const uint32_t *at = forecast + (chunks - 1) * span + delay;
    for (uint32_t i = chunks; i-- > 1;) {
        uint32_t film = 0, k = span; // 60 slots of 2^24 bytes at the most
        s->after[i] = sum;
        for (; k >= 4; k -= 4, at -= 4) film += at[-1] + at[-2] + at[-3] + at[-4];
        if (k & 2) film += at[-1] + at[-2], at -= 2;
        if (k & 1) film += *--at;
        sum += film;
    }
    s->after[0] = sum;
    for (uint32_t t = 0; t < delay; t++) sum += forecast[t];
    s->total = sum;
}

// Document 01's way: from the last chunk down, kept if its need is at most the whole forecast and
// the need of the one that comes to stand H places behind it at most the forecast from its due slot
// on.
static void keep_bases(uint32_t chunks, uint32_t span, uint32_t delay, const uint32_t *forecast, struct settled *s)
{
    uint64_t needs[2 * CHUNKS], last = 0, total = s->total;
    size_t stride = s->stride, held = s->held < CHUNKS ? s->held : CHUNKS, p = CHUNKS;
    const uint32_t *size = s->size + stride * chunks;
    uint32_t due = (chunks - 1) * span + delay;
    memset(needs + CHUNKS, 0, held * sizeof *needs);
    for (uint32_t i = chunks; i; i--, due -= span) {
        uint64_t behind = s->after[i - 1], base = *(size -= stride), need = base + more(behind, last);
        needs[p - 1] = need;
        if (need > total || needs[p - 1 + held] > behind + forecast[due - 1]) continue;
        last = need;
        keep(s, --p, i, due, base, forecast);
    }
    s->first = p;
}

// A heap by size and then by how early: the size above nine bits that fall by chunk.
static void sift_down(uint64_t *heap, size_t n, uint64_t x)
{
    size_t at = 0;
    for (size_t child; (child = 2 * at + 1) < n; at = child) {
        if (child + 1 < n && heap[child] < heap[child + 1]) child++;
        if (heap[child] <= x) break;
        heap[at] = heap[child];
    }
    heap[at] = x;
}

static void sift_up(uint64_t *heap, size_t at, uint64_t x)
{
    for (size_t parent; at && heap[parent = (at - 1) / 2] < x; at = parent) heap[at] = heap[parent];
    heap[at] = x;
}

// Document 02, request 9: chunks from 1 to C are added, and where they exceed the forecast the
// largest is dropped.
void keep_most(uint32_t chunks, uint32_t span, uint32_t delay, const uint32_t *forecast, struct settled *s)
{
    uint64_t heap[CHUNKS], sum = 0;
    uint8_t kept[CHUNKS];
    size_t n = 0;
    uint32_t p = CHUNKS;
    memset(kept, 1, chunks);
    for (uint32_t i = 0; i < chunks; i++) {
        uint64_t size = s->size[s->stride * i], x = size << 9 | (511 - i);
        sum += size;
        if (sum <= s->total - s->after[i]) {
            sift_up(heap, n++, x);
            continue;
        }
        uint64_t out = x;
        if (n && heap[0] > x) {
            out = heap[0];
            sift_down(heap, n, x);
        }
        kept[511 - (out & 511)] = 0;
        sum -= out >> 9;
    }
    for (uint32_t i = chunks; i; i--)
        if (kept[i - 1]) keep(s, --p, i, (i - 1) * span + delay, s->size[s->stride * (i - 1)], forecast);
    s->first = p;
}

static int bases_vary(uint32_t chunks, const struct settled *s)
{
    for (uint32_t i = 1; s->stride && i < chunks; i++)
        if (s->size[4 * i] != s->size[0]) return 1;
    return 0;
}

uint32_t keep_layer(uint32_t n, struct settled *s)
{
    uint64_t room[CHUNKS], left = s->total, need = 0;
    const uint64_t *from = s->from, *behind = s->behind;
    uint64_t *bytes = s->bytes;
    const uint32_t *size = s->size + n;
    size_t first = s->first, near = less(s->held, CHUNKS - first), q = first, stride = s->stride;
    uint32_t count = 0, own = *size;
    for (; q < first + near; q++) {
        room[q] = left;
        left -= less(left, bytes[q]);
    }
    for (; q < CHUNKS; q++) {
        room[q] = left = less(left, from[q - near]);
        left -= less(left, bytes[q]);
    }
    while (q-- > first) {
        uint64_t have = bytes[q];
        need = have + more(behind[q], need);
        if (s->level[q] != n) continue;
        uint64_t more_bytes = stride ? size[4 * s->id[q] - 4] : own;
        if (need + more_bytes > room[q]) continue;
        bytes[q] = have + more_bytes;
        need += more_bytes;
        s->level[q] = n + 1;
        count++;
    }
    return count;
}

void begin(JOB_PARAMETERS, struct settled *s)
{
    s->held = limit / span;
    s->stride = set_sizes(JOB_ARGUMENTS, s->table);
    s->size = s->stride ? s->table : sizes;
    set_sums(chunks, span, delay, forecast, s);
}

void keep_layers(size_t layers, struct settled *s)
{
    memset(s->counts, 0, sizeof s->counts);
    s->counts[0] = CHUNKS - s->first;
    for (size_t n = 1; n < layers; n++) s->counts[n] = keep_layer(n, s);
}

void settle_bases(JOB_PARAMETERS, struct settled *s)
{
    begin(JOB_ARGUMENTS, s);
    s->most = s->held >= chunks && bases_vary(chunks, s);
    if (s->most)
        keep_most(chunks, span, delay, forecast, s);
    else
        keep_bases(chunks, span, delay, forecast, s);
}

void settle(JOB_PARAMETERS, struct settled *s)
{
    settle_bases(JOB_ARGUMENTS, s);
    keep_layers(layers, s);
}

static size_t fill(const struct settled *s, const uint32_t *forecast, uint16_t *restrict row_slots,
    uint16_t *restrict row_chunks, uint8_t *restrict row_layers, uint32_t *restrict row_bytes)
{
    size_t rows = 0;
    uint32_t t = 1, left = forecast[0], first = s->first, held = s->held;
    for (uint32_t q = first; q < CHUNKS; q++) {
        uint32_t i = s->id[q], level = s->level[q];
        const uint32_t *size = s->size + s->stride * (i - 1);
        if (q - first >= held && t < s->due[q - held]) {
            t = s->due[q - held];
            left = forecast[t - 1];
        }
        for (uint32_t n = 0; n < level; n++) {
            uint32_t lacking = size[n];
            while (lacking > left) {
                row_slots[rows] = t;
                row_chunks[rows] = i;
                row_layers[rows] = n;
                row_bytes[rows] = left;
                rows += left != 0; // a slot that is spent has no row
                lacking -= left;
                left = forecast[t++];
            }
            row_slots[rows] = t;
            row_chunks[rows] = i;
            row_layers[rows] = n;
            row_bytes[rows++] = lacking;
            left -= lacking;
        }
    }
    return rows;
}

uint64_t list_plan(const struct settled *s, uint32_t chunks, const uint32_t *forecast, PLAN_PARAMETERS)
{
    (void)marks_len, (void)counts_len;
    size_t rows, room = less(less(out_slots_len, out_chunks_len), less(out_layers_len, out_bytes_len));
    if (room >= FILM_ROWS) {
        rows = fill(s, forecast, out_slots, out_chunks, out_layers, out_bytes);
    } else {
        uint16_t t[FILM_ROWS], i[FILM_ROWS];
        uint8_t n[FILM_ROWS];
        uint32_t b[FILM_ROWS];
        rows = fill(s, forecast, t, i, n, b);
        if (room < rows) return refuse(11);
        memcpy(out_slots, t, rows * sizeof *t);
        memcpy(out_chunks, i, rows * sizeof *i);
        memcpy(out_layers, n, rows);
        memcpy(out_bytes, b, rows * sizeof *b);
    }
    memset(marks, 0, chunks);
    for (uint32_t q = s->first; q < CHUNKS; q++) marks[s->id[q] - 1] = (1 << s->level[q]) - 1;
    memcpy(counts, s->counts, sizeof s->counts);
    return rows;
}

uint64_t plain_plan(JOB_PARAMETERS, PLAN_PARAMETERS)
{
    struct settled s;
    uint32_t number = job_refusal(JOB_ARGUMENTS);
    if (number) return refuse(number);
    if (marks_len < chunks || counts_len < FILM_COUNTS) return refuse(11);
    settle(JOB_ARGUMENTS, &s);
    return list_plan(&s, chunks, forecast, PLAN_ARGUMENTS);
}
