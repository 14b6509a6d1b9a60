// How much stack each call takes at most, on the largest jobs, lists and files, with room enough,
// too little by one, for one and for none: between none and enough a plan is laid out aside and
// copied. Each call runs on a stack that was painted before, and what is no longer painted
// afterwards was used.
#include "film_most.h"
#include <pthread.h>
#include <stdio.h>
#include <stdlib.h>
#include <string.h>
#include <sys/mman.h>

enum { C = 500, SPAN = 7, DELAY = 107, SLOTS = (C - 1) * SPAN + DELAY, P = 1800, STACK = 8 << 20, PAINT = 0xa5 };

static uint32_t sizes[FILM_LAYERS] = {9000, 7000, 5000, 4000};
static struct film_store film;
static struct film_job job;
static struct film_plan plan, other;
static uint8_t file[FILM_FILE], plan_file[FILM_FILE], text[FILM_REASONS];
static uint16_t programme[FILM_PROGRAMME];
static uint32_t walk[FILM_WALK];
static uint16_t bounds[FILM_BOUNDS];
static uint64_t work[FILM_MOST_WORK];
static uint64_t lengths[FILM_LENGTHS];
static struct film_meter meter;
static size_t length, fetched, plan_length;

// The room lent: of so many rows or bytes, or less.
static enum { NONE, ONE, SHORT, ENOUGH, ROOMS } room;
static size_t lent(size_t most)
{
    return room == ENOUGH ? most : room == SHORT ? most - 1 : room == ONE ? 1 : 0;
}

#define LENT(slice, most) slice, lent(most)
#define SIZES job.sizes, job.layers, job.size_chunks, job.szs, job.size_layers, job.szs, job.size_bytes, job.szs, job.forecast, job.slots
#define JOB job.chunks, job.span, job.delay, job.limit, SIZES
#define ROWS(l, n) (l).slots, n, (l).chunks, n, (l).layers, n, (l).bytes, n
#define LIST plan.marks, C, ROWS(plan.list, plan.list.rows)
#define FETCHED P, ROWS(plan.list, fetched)
// Room for the marks and counts but where there is none, so that the rows decide.
#define OUT other.marks, room ? FILM_MARKS : 0, ROWS(other.list, lent(FILM_ROWS)), other.counts, FILM_COUNTS
#define METER meter.slots, FILM_SAMPLES, meter.bytes, FILM_SAMPLES, meter.kept, 1

#define CALLS(X) \
    X(film_write_job, film_write_job(JOB, LENT(file, FILM_FILE))) \
    X(film_read_job, film_read_job(file, length, programme, FILM_PROGRAMME, lengths, FILM_LENGTHS, sizes, FILM_LAYERS, LENT(film.size_chunks, FILM_SZS), film.size_layers, FILM_SZS, film.size_bytes, FILM_SZS, film.forecast, FILM_SLOTS)) \
    X(film_read_mixed_job, film_read_mixed_job(file, length, programme, FILM_PROGRAMME, lengths, FILM_LENGTHS, sizes, FILM_LAYERS, LENT(film.forecast, FILM_SLOTS))) \
    X(film_plan, film_plan(JOB, OUT)) \
    X(film_search, film_search(JOB, 1000000, OUT, walk, FILM_WALK)) \
    X(film_most, film_most(JOB, 2, work, FILM_MOST_WORK, OUT, bounds, FILM_BOUNDS)) \
    X(film_check, film_check(JOB, LIST)) \
    X(film_check_from, film_check_from(JOB, P, LIST)) \
    X(film_replan, film_replan(JOB, FETCHED, film.forecast + P - 1, SLOTS - P + 1, OUT)) \
    X(film_live, film_live(JOB, FETCHED, 1300, LENT(other.list.chunks, FILM_PIECES), other.list.layers, FILM_PIECES, other.list.bytes, FILM_PIECES)) \
    X(film_wait, film_wait(job.chunks, job.span, job.limit, SIZES)) \
    X(film_report, film_report(JOB, LENT(text, FILM_REPORT))) \
    X(film_reasons, film_reasons(JOB, LENT(text, FILM_REASONS))) \
    X(film_book, film_book(JOB, LIST)) \
    X(film_release, film_release(JOB, ROWS(plan.list, plan.list.rows))) \
    X(film_write_plan, film_write_plan(JOB, LIST, LENT(file, FILM_FILE))) \
    X(film_read_plan, film_read_plan(JOB, plan_file, plan_length, other.marks, FILM_MARKS, ROWS(other.list, lent(FILM_FILE_ROWS)))) \
    X(film_plan_file, film_plan_file(file, length, LENT(text, FILM_PLAN_FILE))) \
    X(film_verdict_files, film_verdict_files(file, length, plan_file, plan_length)) \
    X(film_report_file, film_report_file(file, length, LENT(text, FILM_REPORT))) \
    X(film_reasons_file, film_reasons_file(file, length, LENT(text, FILM_REASONS))) \
    X(film_convert_file, film_convert_file(file, length, LENT(text, FILM_JOB_FILE))) \
    X(film_read_trace, film_read_trace((const uint8_t *)"0\n5\n", 4, FILM_SLOTS, LENT(other.list.bytes, FILM_SLOTS))) \
    X(film_write_trace, film_write_trace(other.list.bytes, FILM_SLOTS, LENT(text, sizeof text))) \
    X(film_compare, film_compare(plan.counts, FILM_COUNTS, plan.counts, FILM_COUNTS)) \
    X(film_count_marks, film_count_marks(plan.marks, C, 0, LENT(lengths, FILM_LENGTHS))) \
    X(film_count_word, film_count_word(~(uint64_t)0, 0)) \
    X(film_meter_new, film_meter_new(METER)) \
    X(film_meter_take, film_meter_take(METER, 7, 7)) \
    X(film_meter_forecast, film_meter_forecast(METER)) \
    X(film_version, film_version())

static uint64_t answer;
#define RUN(name, call) static void *run_##name(void *unused) { answer = call; return unused; }
CALLS(RUN)
static void *run_nothing(void *unused) { return unused; }

static size_t used(void *(*run)(void *))
{
    uint8_t *stack = mmap(NULL, STACK, PROT_READ | PROT_WRITE, MAP_PRIVATE | MAP_ANONYMOUS, -1, 0);
    memset(stack, PAINT, STACK);
    pthread_attr_t attr;
    pthread_attr_init(&attr);
    pthread_attr_setstack(&attr, stack, STACK);
    pthread_t thread;
    if (pthread_create(&thread, &attr, run, NULL) || pthread_join(thread, NULL)) exit(1);
    size_t low = 0;
    while (stack[low] == PAINT) low++;
    munmap(stack, STACK);
    return STACK - low;
}

// A film of so many SZs under a limit, its plan, its rows before slot P, and their files.
static void set_up(size_t szs, uint16_t limit)
{
    job = (struct film_job){C, SPAN, DELAY, limit, sizes, FILM_LAYERS, film.size_chunks, film.size_layers, film.size_bytes, szs, film.forecast, SLOTS};
    for (size_t t = 0; t < SLOTS; t++) film.forecast[t] = t * 7919 % 6000;
    for (size_t k = 0; k < szs; k++) {
        film.size_chunks[k] = 2 + k / 4;
        film.size_layers[k] = k % 4;
        film.size_bytes[k] = 4003 + 11 * (k / 4);
    }
    if (film_refused(film_plan_of(&job, &plan))) exit(2);
    for (fetched = 0; fetched < plan.list.rows && plan.list.slots[fetched] < P;) fetched++;
    length = film_write_job_of(&job, file, FILM_FILE);
    plan_length = film_write_plan_of(&job, &plan, plan_file, FILM_FILE);
    memset(&other, 0, sizeof other);
    film_meter_new_of(&meter);
}

int main(void)
{
    size_t own = used(run_nothing), most = 0;
#define MEASURE(name, call) \
    { \
        size_t top = 0; \
        for (int k = 0; k < 4 * ROOMS; k++) { \
            set_up(k & 1 ? FILM_SZS : 0, k & 2 ? 65535 : 28); \
            room = k >> 2; \
            size_t took = used(run_##name) - own; \
            if (took > top) top = took; \
        } \
        printf("%-20s %zu\n", #name, top); \
        if (top > most) most = top; \
    }
    CALLS(MEASURE)
    printf("most %zu\n", most);
    return 0;
}
