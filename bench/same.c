// Both ways of every call give the same answer and leave the same bytes.
#include "inputs.h"
#include <inttypes.h>
#include <stdio.h>
#include <stdlib.h>

static struct out kept;
static uint64_t kept_work[8]; // what the work slice begins with, which a refusal leaves
static uint8_t kept_trace[TRACE_BYTES];
static uint64_t compared, refusals[32];

static uint64_t fresh(uint64_t (*run)(void), size_t wide)
{
    memset(&out, 0xa5, sizeof out);
    memset(out_trace, 0xa5, wide);
    memset(work, 0xa5, sizeof kept_work);
    uint64_t answer = run();
    if (!film_refused(answer)) memset(work, 0xa5, sizeof kept_work);
    return answer;
}

void compare(const struct call *c)
{
    // Of the trace's bytes as many as can be written, and some more.
    size_t wide = strcmp(c->name, "film_write_trace") ? 0 : in.trace_slots > 100 ? TRACE_BYTES : 4096;
    uint64_t proved = fresh(c->proved, wide);
    kept = out;
    memcpy(kept_trace, out_trace, wide);
    memcpy(kept_work, work, sizeof kept_work);
    uint64_t plain = fresh(c->plain, wide);
    compared++;
    refusals[film_refused(proved) & 31]++;
    int bytes = memcmp(&kept, &out, sizeof out) || memcmp(kept_trace, out_trace, wide) ||
                memcmp(kept_work, work, sizeof kept_work);
    if (proved == plain && !bytes) return;
    fprintf(stderr, "%s: answer %" PRIx64 ", in plain C %" PRIx64 ", lent bytes %s\n", c->name, proved, plain,
        bytes ? "differ" : "the same");
    exit(1);
}

static uint32_t odd_size(uint32_t x)
{
    uint32_t to[] = {0, 1, x + 1, x - 1, 16777215, 16777216, 16777217, ~(uint32_t)0, x ^ 256, next(100)};
    return to[next(10)];
}

static void small_job(void)
{
    uint32_t layers = 1 + next(4), k = 0;
    in.job = (struct film_job){1 + next(6), 1 + next(3), 1 + next(4), next(9), in.film.sizes, layers,
        in.film.size_chunks, in.film.size_layers, in.film.size_bytes, 0, in.film.forecast, 0};
    in.job.slots = (in.job.chunks - 1) * in.job.span + in.job.delay;
    for (uint32_t n = 0; n < layers; n++) in.film.sizes[n] = 1 + next(4);
    for (uint32_t i = 2; i <= in.job.chunks; i++)
        for (uint32_t n = 0; n < layers && next(2); n++) {
            uint32_t bytes = 1 + next(6);
            if (bytes == in.film.sizes[n]) continue;
            in.film.size_chunks[k] = i;
            in.film.size_layers[k] = n;
            in.film.size_bytes[k++] = bytes;
        }
    in.job.szs = k;
    for (uint32_t t = 0; t < in.job.slots; t++) in.film.forecast[t] = next(7);
}

static void small_act(void)
{
    uint16_t from = 1 + next(in.job.slots);
    in.rate = next(6);
    fetch_plan(from);
    if (next(2)) fetch_live(from);
    for (size_t k = 0; k < in.onward_len; k++) in.onward[k] = next(7);
    in.budget = next(next(2) ? 4 : 200);
    in.passes = next(4);
}

static void small_trace(void)
{
    uint32_t time = 0;
    in.trace_slots = next(9);
    in.trace_len = 0;
    for (uint32_t k = next(8); k; k--, time += next(2500))
        in.trace_len += sprintf((char *)in.trace + in.trace_len, "%u\n", time);
    if (in.trace_len && next(3) == 0) in.trace[next(in.trace_len)] = " \n0z"[next(4)];
    if (next(9) == 0) in.trace_len--;
    in.trace_len &= 4095;
    for (size_t t = 0; t < in.trace_slots; t++) in.trace_forecast[t] = 1500 * next(9) + (next(40) == 0);
}

static void damage_file(uint8_t *file, size_t *len)
{
    static const char *marks[] = {"PG", "LY", "SZ", "BW", "EN", "KP", "FT"};
    size_t at = next(*len), many = 1 + next(11), to = next(*len);
    switch (next(8)) {
    case 0: file[at] = next(256); break;
    case 1: file[at] ^= 1 << next(8); break;
    case 2: *len = at; break;
    case 3: *len += 1 + next(4); break;
    case 4: memcpy(file + at, marks[next(7)], 2); break;
    case 5: // some bytes once more
        if (*len + many > FILM_FILE) break;
        memmove(file + at + many, file + at, *len - at);
        *len += many;
        break;
    case 6:
        if (next(10) == 0) *len = FILM_FILE + next(3);
        break;
    default: // some bytes elsewhere
        if (at + many <= *len && to + many <= *len) memmove(file + to, file + at, many);
    }
}

static void damage_job(void)
{
    struct film_job *j = &in.job;
    uint16_t *fields[] = {&j->chunks, &j->span, &j->delay, &j->limit};
    size_t k = next(j->szs);
    switch (next(9)) {
    case 0: *fields[next(4)] = next(8); break;
    case 1: *fields[next(4)] = next(2) ? 65535 : 501; break;
    case 2: j->layers = next(6); break;
    case 3: in.film.sizes[next(4)] = odd_size(4); break;
    case 4: in.film.size_bytes[k] = odd_size(in.film.size_bytes[k]); break;
    case 5: in.film.size_chunks[k] = next(8); break;
    case 6: in.film.size_layers[k] = next(6); break;
    case 7: j->slots = j->slots + next(3) - 1; break;
    default: in.film.forecast[next(j->slots)] = odd_size(3);
    }
}

static void damage_list(struct film_list *l)
{
    size_t k = next(l->rows);
    switch (next(8)) {
    case 0: l->slots[k] = next(12); break;
    case 1: l->chunks[k] = next(8); break;
    case 2: l->layers[k] = next(5); break;
    case 3: l->bytes[k] = odd_size(l->bytes[k]); break;
    case 4: in.plan.marks[next(8)] ^= 1 << next(8); break;
    case 5: in.marks = in.marks + next(3) - 1; break;
    case 6:
        if (l->rows) l->rows--;
        break;
    default:
        if (!film_push(l, 1 + next(9), 1 + next(6), next(4), 1 + next(4))) exit(2);
    }
}

static void damage_act(void)
{
    switch (next(3)) {
    case 0: in.from = next(14); break;
    case 1: in.onward_len = next(in.onward_len + 2); break;
    default: in.onward[next(in.onward_len)] = odd_size(3);
    }
}

void compare_damaged(void)
{
    for (uint32_t trial = 0; trial < 10000; trial++) {
        seed = trial * 2654435761u + 1;
        room = SIZE_MAX;
        small_job();
        make_files();
        small_act();
        small_trace();
        room = next(4) ? SIZE_MAX : next(next(2) ? 8 : 120);
        for (uint32_t n = next(3); n; n--) damage_file(in.file, &in.file_len);
        for (uint32_t n = next(3); n; n--) damage_file(in.plan_file, &in.plan_len);
        if (next(3) == 0) damage_job();
        for (uint32_t n = next(3); n; n--) damage_list(&in.plan.list);
        for (uint32_t n = next(3); n; n--) damage_list(&in.fetched);
        if (next(4) == 0) damage_act();
        for (size_t k = 0; k < call_count; k++) compare(&calls[k]);
    }
    room = SIZE_MAX;
    printf("%" PRIu64 " comparisons with plain C, each the same; refused by", compared);
    for (int n = 1; n < 32; n++)
        if (refusals[n]) printf(" %d: %" PRIu64, n, refusals[n]);
    printf("\n");
}
