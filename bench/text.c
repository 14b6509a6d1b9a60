// The report and the reasons in plain C. Both are written to a buffer of their own, where there is
// always room, and go to the lent one if they fit.
#include "plan.h"

// The digits are copied as so many bytes whatever their number: there is room.
static inline uint8_t *put_number(uint8_t *at, uint64_t x)
{
    uint8_t digits[40];
    int n = 20;
    do digits[--n] = '0' + x % 10;
    while (x /= 10);
    memcpy(at, digits + n, 20);
    return at + 20 - n;
}

#define PUT(at, word) (memcpy(at, word, sizeof word - 1), at + sizeof word - 1)

static uint64_t hand_over(const uint8_t *text, const uint8_t *end, uint8_t *out, size_t out_len)
{
    size_t bytes = end - text;
    if (out_len < bytes) return refuse(11);
    memcpy(out, text, bytes);
    return bytes;
}

uint64_t plain_report(JOB_PARAMETERS, uint8_t *out, size_t out_len)
{
    struct settled s;
    uint8_t text[FILM_REPORT + 40], *at = text;
    uint32_t number = job_refusal(JOB_ARGUMENTS);
    if (number) return refuse(number);
    settle(JOB_ARGUMENTS, &s);
    at = put_number(PUT(at, "slots "), slots);
    at = put_number(PUT(at, " chunks "), chunks);
    at = put_number(PUT(at, " held "), s.held);
    *at++ = '\n';
    uint64_t bytes = 0, switched = 0, before = 0;
    for (uint32_t i = 1, q = s.first; i <= chunks; i++) {
        at = put_number(at, i);
        if (q == CHUNKS || s.id[q] != i) {
            at = PUT(at, " 0 0\n");
            continue;
        }
        uint64_t now = s.bytes[q];
        *at++ = ' ';
        *at++ = '0' + s.level[q];
        *at++ = ' ';
        at = put_number(at, now);
        *at++ = '\n';
        if (q++ > s.first) switched += now < before ? before - now : now - before;
        before = now;
        bytes += now;
    }
    at = PUT(at, "layers");
    for (size_t n = 0; n < layers; n++) at = put_number(PUT(at, " "), s.counts[n]);
    at = put_number(PUT(at, "\nbytes "), bytes);
    at = put_number(PUT(at, " left "), s.total - bytes);
    at = put_number(PUT(at, "\nswitch "), switched);
    at = put_number(PUT(at, "\nrate "), switched / (chunks * span));
    at = put_number(PUT(at, " "), switched % (chunks * span));
    *at++ = '\n';
    return hand_over(text, at, out, out_len);
}

// What a trial needs: by chunk the layers carried, the bytes of its first layers, the forecast up
// to its due slot and before it.
struct trial {
    uint32_t chunks, span, delay, held;
    uint8_t level[CHUNKS];
    uint32_t sums[4 * CHUNKS];
    uint64_t upto[CHUNKS], before[CHUNKS];
};

// The trial of layer n of chunk i (from 0), chunks before it with at most `cap` layers: forward to
// the first kept chunk that is late, back from it to where the stretch begins. Writes its sentence.
static uint8_t *put_stretch(uint8_t *at, const struct trial *r, uint32_t i, uint32_t n, uint32_t cap)
{
    uint16_t kept[CHUNKS], ready[CHUNKS];
    uint32_t bytes[CHUNKS], q = 0, k = 0, held = r->held;
    uint64_t start[CHUNKS], used = 0;
    for (;; k++) {
        uint32_t level = r->level[k], most = k < i ? cap : n + 1;
        level = k == i || level > most ? most : level;
        if (!level) continue;
        kept[q] = k;
        ready[q] = 1;
        start[q] = 0;
        if (q >= held) {
            uint32_t back = kept[q - held];
            ready[q] = back * r->span + r->delay;
            start[q] = r->before[back];
        }
        bytes[q] = r->sums[4 * k + level - 1];
        used = (used < start[q] ? start[q] : used) + bytes[q];
        if (used > r->upto[k]) break;
        q++;
    }
    uint64_t most = r->upto[k], need = 0;
    for (;; q--) {
        need += bytes[q];
        if (start[q] + need > most && (q == 0 || ready[q - 1] < ready[q])) break;
    }
    at = put_number(PUT(at, ": slots "), ready[q]);
    at = put_number(PUT(at, " to "), k * r->span + r->delay);
    at = put_number(PUT(at, " carry "), most - start[q]);
    return put_number(PUT(at, ", need "), need);
}

static void set_trial(const struct settled *s, size_t layers, const uint32_t *forecast, struct trial *r)
{
    memset(r->level, 0, r->chunks);
    for (uint32_t q = s->first; q < CHUNKS; q++) r->level[s->id[q] - 1] = s->level[q];
    for (uint32_t i = 0; i < r->chunks; i++) {
        uint32_t sum = 0;
        for (size_t n = 0; n < layers; n++) r->sums[4 * i + n] = sum += s->size[s->stride * i + n];
        r->upto[i] = s->total - s->after[i];
        r->before[i] = r->upto[i] - forecast[i * r->span + r->delay - 1];
    }
}

uint64_t plain_reasons(JOB_PARAMETERS, uint8_t *out, size_t out_len)
{
    struct settled s;
    struct trial r;
    uint8_t text[FILM_REASONS + 40], *at = text;
    uint32_t number = job_refusal(JOB_ARGUMENTS);
    if (number) return refuse(number);
    settle(JOB_ARGUMENTS, &s);
    r.chunks = chunks, r.span = span, r.delay = delay, r.held = s.held;
    set_trial(&s, layers, forecast, &r);
    for (uint32_t i = 0; i < chunks; i++)
        for (uint32_t have = r.level[i], n = have; n < layers; n++) {
            at = put_number(PUT(at, "chunk "), i + 1);
            at = put_number(PUT(at, " layer "), n);
            if (n == have) {
                at = put_stretch(at, &r, i, n, n ? n : (uint32_t)s.most);
                *at++ = '\n';
            } else {
                at = put_number(PUT(at, ": layer "), n - 1);
                at = PUT(at, " is missing\n");
            }
        }
    return hand_over(text, at, out, out_len);
}
