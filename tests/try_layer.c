/* Tries the inline layer of the header: each function of it beside the call itself, on films with
 * and without SZs, on jobs that are refused and on a zeroed one, whose slices are null. Answers and
 * every byte of every struct have to be the same, and no call may be handed null. examples/run
 * builds it with the compiler's sanitizers, which see that, and runs it. */
#include "film_most.h"
#include <inttypes.h>
#include <stdio.h>
#include <stdlib.h>
#include <string.h>

static unsigned long calls;

static void same(const char *name, uint64_t answer, uint64_t own)
{
    calls++;
    if (answer == own) return;
    printf("%s_of answers %" PRIu64 ", %s %" PRIu64 "\n", name, answer, name, own);
    exit(1);
}

static void same_bytes(const char *name, const void *a, const void *b, size_t length)
{
    if (!memcmp(a, b, length)) return;
    printf("%s_of hands over something else than %s\n", name, name);
    exit(1);
}

/* The calls themselves want no null. */
static uint64_t nothing[1];
#define AT(p, n) (n) ? (p) : (void *)nothing, (n)
#define SIZES(j) AT((j)->sizes, (j)->layers), AT((j)->size_chunks, (j)->szs), AT((j)->size_layers, (j)->szs), \
                 AT((j)->size_bytes, (j)->szs), AT((j)->forecast, (j)->slots)
#define JOB(j) (j)->chunks, (j)->span, (j)->delay, (j)->limit, SIZES(j)
#define ROWS(l, n) (l).slots, n, (l).chunks, n, (l).layers, n, (l).bytes, n
#define HANDED(l) ROWS(l, (l).rows)
#define ROOM(p) (p).marks, FILM_MARKS, ROWS((p).list, FILM_FILE_ROWS), (p).counts, FILM_COUNTS
#define METER(m) (m).slots, FILM_SAMPLES, (m).bytes, FILM_SAMPLES, (m).kept, 1

static struct film_plan a, b, plan;
static uint8_t text_a[FILM_REASONS], text_b[FILM_REASONS], file[FILM_FILE], plan_file[FILM_FILE];

/* Both plans as they were before a call: noise, of which a refusal leaves every byte. */
static void noise(void)
{
    memset(&a, 0x5a, sizeof a);
    memset(&b, 0x5a, sizeof b);
    memset(text_a, 0x5a, sizeof text_a);
    memset(text_b, 0x5a, sizeof text_b);
}

static void same_plan(const char *name, uint64_t answer, uint64_t own)
{
    same(name, answer, own);
    if (!film_refused(own)) b.list.rows = own;
    same_bytes(name, &a, &b, sizeof a);
}

#define PLANS(name, answer, own) (noise(), same_plan(name, answer, own))
#define TEXTS(name, answer, own) \
    (noise(), same(name, answer, own), same_bytes(name, text_a, text_b, sizeof text_a))
#define OUT(text) text, sizeof text

static void try_planning(const struct film_job *j, uint16_t from)
{
    size_t rest = !from || j->slots < from ? 0 : j->slots - from + 1u, k;
    const uint32_t *onward = rest ? j->forecast + from - 1 : NULL;
    static struct film_list fetched;
    struct film_walk walk = {7, 7, 7}, kept = walk;
    uint32_t said[FILM_WALK] = {7, 7, 7};

    PLANS("film_plan", film_plan_of(j, &a), film_plan(JOB(j), ROOM(b)));
    if (!film_refused(film_plan_of(j, &a))) plan = a;
    PLANS("film_search", film_search_of(j, 50, &a, &walk), film_search(JOB(j), 50, ROOM(b), said, FILM_WALK));
    kept.steps = said[0], kept.ended = said[1], kept.shortfall = said[2];
    same_bytes("film_search", &walk, &kept, sizeof walk);

    static uint64_t work_a[FILM_MOST_WORK], work_b[FILM_MOST_WORK];
    struct film_bounds bounds = {7, 7, 7}, kept_bounds = bounds;
    uint16_t most[FILM_BOUNDS] = {7, 7, 7};
    PLANS("film_most", film_most_of(j, 4, work_a, FILM_MOST_WORK, &a, &bounds),
          film_most(JOB(j), 4, work_b, FILM_MOST_WORK, ROOM(b), most, FILM_BOUNDS));
    kept_bounds.in_order = most[0], kept_bounds.any_order = most[1], kept_bounds.exact = most[2];
    same_bytes("film_most", &bounds, &kept_bounds, sizeof bounds);
    same("film_most", film_most_of(j, 4, NULL, 0, &a, &bounds), film_most(JOB(j), 4, nothing, 0, ROOM(b), most, FILM_BOUNDS));

    fetched.rows = 0;
    for (k = 0; k < plan.list.rows; k++)
        if (plan.list.slots[k] < from &&
            !film_push(&fetched, plan.list.slots[k], plan.list.chunks[k], plan.list.layers[k], plan.list.bytes[k])) exit(1);
    PLANS("film_replan", film_replan_of(j, from, &fetched, onward, rest, &a),
          film_replan(JOB(j), from, HANDED(fetched), AT(onward, rest), ROOM(b)));

    static struct film_pieces p, q;
    memset(&p, 0x5a, sizeof p);
    memset(&q, 0x5a, sizeof q);
    uint64_t own = film_live(JOB(j), from, HANDED(fetched), 3, q.chunks, FILM_PIECES, q.layers, FILM_PIECES, q.bytes, FILM_PIECES);
    same("film_live", film_live_of(j, from, &fetched, 3, &p), own);
    if (!film_refused(own)) q.pieces = own;
    same_bytes("film_live", &p, &q, sizeof p);
}

static void try_lists(const struct film_job *j, uint16_t from)
{
    size_t marks = j->chunks < FILM_MARKS ? j->chunks : FILM_MARKS;
    uint32_t forecast[64], before[64];
    struct film_job lent = *j;

    same("film_check", film_check_of(j, &plan), film_check(JOB(j), plan.marks, marks, HANDED(plan.list)));
    same("film_check_from", film_check_from_of(j, from, &plan), film_check_from(JOB(j), from, plan.marks, marks, HANDED(plan.list)));
    TEXTS("film_write_plan", film_write_plan_of(j, &plan, OUT(text_a)),
          film_write_plan(JOB(j), plan.marks, marks, HANDED(plan.list), OUT(text_b)));
    uint64_t length = film_write_plan_of(j, &plan, OUT(plan_file));
    if (!film_refused(length)) {
        noise();
        uint64_t answer = film_read_plan_of(j, plan_file, length, &a);
        uint64_t own = film_read_plan(JOB(j), plan_file, length, b.marks, FILM_MARKS, ROWS(b.list, FILM_FILE_ROWS));
        memcpy(b.counts, plan.counts, sizeof b.counts);
        same_plan("film_read_plan", answer, own);
    }
    for (int k = 0; k < 2; k++) {
        memcpy(forecast, j->forecast ? j->forecast : before, j->slots * sizeof *forecast);
        memcpy(before, forecast, j->slots * sizeof *forecast);
        lent.forecast = k ? forecast : before;
        struct film_job *l = &lent;
        if (k) same("film_book", film_book_of(j, &plan), film_book(JOB(l), plan.marks, marks, HANDED(plan.list)));
        else same("film_release", film_release_of(j, &plan.list), film_release(JOB(l), HANDED(plan.list)));
        same_bytes("film_book or film_release", j->slots ? j->forecast : forecast, lent.forecast, j->slots * sizeof *forecast);
    }
    same("film_compare", film_compare_of(&plan, &a), film_compare(plan.counts, FILM_COUNTS, a.counts, FILM_COUNTS));
}

static void try_texts(const struct film_job *j)
{
    static struct film_store s, t;
    struct film_job read = {0};
    uint16_t programme[FILM_PROGRAMME];
    uint64_t lengths[FILM_LENGTHS], own;

    same("film_wait", film_wait_of(j), film_wait(j->chunks, j->span, j->limit, SIZES(j)));
    TEXTS("film_report", film_report_of(j, OUT(text_a)), film_report(JOB(j), OUT(text_b)));
    TEXTS("film_reasons", film_reasons_of(j, OUT(text_a)), film_reasons(JOB(j), OUT(text_b)));
    TEXTS("film_write_job", film_write_job_of(j, OUT(text_a)), film_write_job(JOB(j), OUT(text_b)));
    same("film_report", film_report_of(j, NULL, 0), film_report(JOB(j), (uint8_t *)nothing, 0));

    uint64_t answer = film_write_job_of(j, OUT(file));
    size_t length = film_refused(answer) ? 0 : answer, plan_length = length ? film_write_plan_of(j, &plan, OUT(plan_file)) : 0;
    const uint8_t *job = length ? file : NULL;
    own = film_read_job(AT(job, length), programme, FILM_PROGRAMME, lengths, FILM_LENGTHS, t.sizes, FILM_LAYERS, t.size_chunks, FILM_SZS,
                        t.size_layers, FILM_SZS, t.size_bytes, FILM_SZS, t.forecast, FILM_SLOTS);
    same("film_read_job", film_read_job_of(job, length, &s, &read), own);
    same_bytes("film_read_job", &s, &t, sizeof s);
    TEXTS("film_read_job", film_write_job_of(length ? &read : j, OUT(text_a)), film_write_job_of(j, OUT(text_b)));
    own = film_read_mixed_job(AT(job, length), programme, FILM_PROGRAMME, lengths, FILM_LENGTHS, t.sizes, FILM_LAYERS, t.forecast, FILM_SLOTS);
    same("film_read_mixed_job", film_read_mixed_job_of(job, length, &s, &read), own);
    same_bytes("film_read_mixed_job", &s, &t, sizeof s);

    TEXTS("film_plan_file", film_plan_file_of(job, length, OUT(text_a)), film_plan_file(AT(job, length), OUT(text_b)));
    TEXTS("film_report_file", film_report_file_of(job, length, OUT(text_a)), film_report_file(AT(job, length), OUT(text_b)));
    TEXTS("film_reasons_file", film_reasons_file_of(job, length, OUT(text_a)), film_reasons_file(AT(job, length), OUT(text_b)));
    TEXTS("film_convert_file", film_convert_file_of(job, length, OUT(text_a)), film_convert_file(AT(job, length), OUT(text_b)));
    same("film_verdict_files", film_verdict_files_of(job, length, plan_file, plan_length),
         film_verdict_files(AT(job, length), plan_file, plan_length));
}

static void try_link(void)
{
    static const uint8_t trace[] = "0\n999\n1000\n";
    uint32_t f[3] = {9, 9, 9}, g[3] = {9, 9, 9};
    struct film_meter m, w;
    uint64_t count = 9;

    same("film_read_trace", film_read_trace_of(trace, sizeof trace - 1, 3, f, 3), film_read_trace(trace, sizeof trace - 1, 3, g, 3));
    same_bytes("film_read_trace", f, g, sizeof f);
    TEXTS("film_write_trace", film_write_trace_of(f, 3, OUT(text_a)), film_write_trace(g, 3, OUT(text_b)));
    same("film_read_trace", film_read_trace_of(NULL, 0, 3, f, 3), film_read_trace((uint8_t *)nothing, 0, 3, g, 3));
    same("film_write_trace", film_write_trace_of(NULL, 0, NULL, 0), film_write_trace((uint32_t *)nothing, 0, (uint8_t *)nothing, 0));

    memset(&m, 0x5a, sizeof m);
    memset(&w, 0x5a, sizeof w);
    film_meter_new_of(&m);
    same("film_meter_new", 0, film_meter_new(METER(w)));
    same("film_meter_forecast", film_meter_forecast_of(&m), film_meter_forecast(METER(w)));
    same("film_meter_take", film_meter_take_of(&m, 3, 40), film_meter_take(METER(w), 3, 40));
    same("film_meter_forecast", film_meter_forecast_of(&m), film_meter_forecast(METER(w)));
    same_bytes("film_meter_take", &m, &w, sizeof m);

    if (film_count_marks(plan.marks, 3, 0, &count, 1)) exit(1);
    same("film_count_marks", film_count_marks_of(plan.marks, 3, 0), count);
    same("film_count_marks", film_count_marks_of(NULL, 0, 0), 0);
}

int main(void)
{
    static const uint32_t sizes[] = {2, 1}, size_bytes[] = {1, 3};
    static const uint16_t size_chunks[] = {2, 3};
    static const uint8_t size_layers[] = {0, 0};
    static uint32_t forecast[] = {3, 0, 1, 0, 2, 0, 1};
    struct film_job even = {.chunks = 3, .span = 2, .delay = 3, .limit = 4, .sizes = sizes, .layers = 2, .forecast = forecast, .slots = 7};
    struct film_job uneven = even, long_one = even, poor = even, zero = {0};
    uneven.size_chunks = size_chunks, uneven.size_layers = size_layers, uneven.size_bytes = size_bytes, uneven.szs = 2;
    long_one.chunks = 65535;
    poor.layers = 0, poor.sizes = NULL;

    const struct film_job *jobs[] = {&even, &uneven, &long_one, &poor, &zero};
    for (size_t k = 0; k < sizeof jobs / sizeof *jobs; k++)
        for (uint16_t from = 0; from < 9; from++) {
            try_planning(jobs[k], from);
            try_lists(jobs[k], from);
            try_texts(jobs[k]);
        }
    try_link();
    printf("%lu calls by the inline layer: as by the calls themselves\n", calls);
    return 0;
}
