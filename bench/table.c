// One table of every call that matters beside its twin in plain C.
//   table list [CALL]           the rows: call, film, slot or 0
//   table words CALL FILM SLOT  what the row is
//   table count CALL FILM SLOT proved|plain
//                               runs one of them once within `counted`, for callgrind to count
//   table time CALL FILM SLOT   nanoseconds of both, the least of many runs in turns
//   table file FILM             the film's job file, on standard output
//   table spawn A B FILE        nanoseconds of two programs that read the file, likewise
//   table same                  answers and lent bytes of both, on each row and on damaged input
#include "inputs.h"
#include <fcntl.h>
#include <inttypes.h>
#include <stdio.h>
#include <stdlib.h>
#include <sys/wait.h>
#include <time.h>
#include <unistd.h>
// What comes before the call need not be counted, and then is quicker.
#if __has_include(<valgrind/callgrind.h>)
#include <valgrind/callgrind.h>
#else
#define CALLGRIND_START_INSTRUMENTATION
#endif

static const struct row {
    const char *call, *film;
    uint16_t slot;
} rows[] = {
    {"film_read_job", "equal", 0}, {"film_read_job", "ten_a_run", 0}, {"film_read_job", "uneven", 0},
    {"film_write_job", "equal", 0}, {"film_write_job", "ten_a_run", 0}, {"film_write_job", "uneven", 0},
    {"film_read_plan", "equal", 0}, {"film_read_plan", "uneven", 0},
    {"film_write_plan", "equal", 0}, {"film_write_plan", "uneven", 0},
    {"film_plan", "equal", 0}, {"film_plan", "ten_a_run", 0}, {"film_plan", "uneven", 0}, {"film_plan", "most", 0},
    {"film_plan_file", "equal", 0}, {"film_plan_file", "ten_a_run", 0}, {"film_plan_file", "uneven", 0},
    {"film_check", "equal", 0}, {"film_check", "uneven", 0},
    {"film_report", "equal", 0}, {"film_report", "uneven", 0},
    {"film_reasons", "bases", 0}, {"film_reasons", "bases_100", 0}, {"film_reasons", "dropped", 0},
    {"film_reasons", "poor_link", 0},
    {"film_replan", "equal", 1}, {"film_replan", "equal", 1800}, {"film_replan", "equal", 3600},
    {"film_replan", "uneven", 1}, {"film_replan", "uneven", 1800}, {"film_replan", "uneven", 3600},
    {"film_live", "equal", 1}, {"film_live", "equal", 1800}, {"film_live", "equal", 3600}, {"film_live", "all_held", 1},
    {"film_live", "uneven", 1800}, {"film_live", "uneven", 3600},
    {"film_search", "held_10", 0}, {"film_search", "held_3", 0}, {"film_search", "leaner", 0},
    {"film_most", "equal", 0}, {"film_most", "most", 0}, {"film_most", "runs", 0}, {"film_most", "held_3", 0},
    {"film_most", "held_10", 0}, {"film_most", "leaner", 0}, {"film_most", "held_50", 0},
    {"film_wait", "no_wait", 0}, {"film_wait", "late_wait", 0}, {"film_wait", "early_wait", 0},
    {"film_read_trace", "lines", 0}, {"film_write_trace", "lines", 0},
};
enum { ROWS = sizeof rows / sizeof *rows };

__attribute__((noinline)) uint64_t counted(uint64_t (*run)(void))
{
    uint64_t answer = run();
    __asm__ volatile("" ::: "memory");
    return answer;
}

static uint64_t now(void)
{
    struct timespec t;
    clock_gettime(CLOCK_MONOTONIC, &t);
    return (uint64_t)t.tv_sec * 1000000000 + t.tv_nsec;
}

static void take_time(const struct call *c)
{
    uint64_t least[2] = {~(uint64_t)0, ~(uint64_t)0}, begun = now();
    for (int k = 0; k < 5000 && (k < 10 || now() - begun < 400000000); k++)
        for (int w = 0; w < 2; w++) {
            uint64_t (*run)(void) = w ? c->plain : c->proved, from = now();
            counted(run);
            uint64_t took = now() - from;
            if (took < least[w]) least[w] = took;
        }
    printf("%" PRIu64 " %" PRIu64 "\n", least[0], least[1]);
}

// What a call's answer counts, where it isn't rows.
static const char *unit_of(const char *call)
{
    static const char *const units[][2] = {{"film_read_job", "bytes"}, {"film_write_job", "bytes"},
        {"film_write_plan", "bytes"}, {"film_plan_file", "bytes"}, {"film_report", "bytes"}, {"film_reasons", "bytes"},
        {"film_read_trace", "bytes"}, {"film_write_trace", "bytes"}, {"film_live", "pieces"}, {"film_wait", "slots"}};
    for (size_t k = 0; k < sizeof units / sizeof *units; k++)
        if (!strcmp(units[k][0], call)) return units[k][1];
    return "rows";
}

// The job of a row, and how much was read, written or found.
static void words(const char *call, const char *film, uint16_t slot)
{
    uint64_t answer = ready(call, film, slot)->proved();
    printf("%s: ", words_of(film));
    if (slot) printf("slot %u, %zu rows fetched, ", slot, in.fetched.rows);
    if (film_refused(answer)) {
        printf("refused %" PRIu32 "\n", film_refused(answer));
        return;
    }
    if (!strcmp(call, "film_read_job")) answer = in.file_len;
    if (!strcmp(call, "film_read_trace")) answer = in.trace_len;
    if (!strcmp(call, "film_check")) answer = in.plan.list.rows;
    if (!strcmp(call, "film_most"))
        printf("%u bases, bound %u, %u in any order, ", out.plan.counts[0], out.bounds[0], out.bounds[1]);
    if (!strcmp(call, "film_search")) printf("%u steps, %u bases, ", out.walk[0], out.plan.counts[0]);
    printf("%" PRIu64 " %s\n", answer, unit_of(call));
}

// From fork to the end, with its start.
static uint64_t spawn(const char *program, const char *file)
{
    int status;
    uint64_t from = now();
    pid_t child = fork();
    if (child == 0) {
        dup2(open(file, O_RDONLY), 0);
        dup2(open("/dev/null", O_WRONLY), 1);
        execl(program, program, (char *)NULL);
        _exit(127);
    }
    if (waitpid(child, &status, 0) != child || status) exit(1);
    return now() - from;
}

static void time_programs(const char *a, const char *b, const char *file)
{
    uint64_t least[2] = {~(uint64_t)0, ~(uint64_t)0};
    for (int k = 0; k < 500; k++)
        for (int w = 0; w < 2; w++) {
            uint64_t took = spawn(w ? b : a, file);
            if (took < least[w]) least[w] = took;
        }
    printf("%" PRIu64 " %" PRIu64 "\n", least[0], least[1]);
}

// Run before, so that no name has to be looked up in a library when it counts.
static int count(const struct call *c, int plain)
{
    uint64_t (*run)(void) = plain ? c->plain : c->proved, answer = run();
    CALLGRIND_START_INSTRUMENTATION;
    return counted(run) != answer;
}

static void list(const char *call)
{
    for (size_t k = 0; k < ROWS; k++)
        if (!call || !strcmp(rows[k].call, call)) printf("%s %s %u\n", rows[k].call, rows[k].film, rows[k].slot);
}

static void same(void)
{
    for (size_t k = 0; k < ROWS; k++) compare(ready(rows[k].call, rows[k].film, rows[k].slot));
    for (uint32_t k = 0; k < 20; k++) compare(ready_long(k));
    compare_damaged();
}

int main(int argc, char **argv)
{
    const char *what = argc > 1 ? argv[1] : "";
    if (!strcmp(what, "list"))
        list(argc > 2 ? argv[2] : NULL);
    else if (!strcmp(what, "same"))
        same();
    else if (!strcmp(what, "spawn") && argc == 5)
        time_programs(argv[2], argv[3], argv[4]);
    else if (!strcmp(what, "file") && argc == 3) {
        ready("film_plan", argv[2], 0);
        fwrite(in.file, 1, in.file_len, stdout);
    }
    else if (!strcmp(what, "words") && argc == 5)
        words(argv[2], argv[3], atoi(argv[4]));
    else if (!strcmp(what, "time") && argc == 5)
        take_time(ready(argv[2], argv[3], atoi(argv[4])));
    else if (!strcmp(what, "count") && argc == 6)
        return count(ready(argv[2], argv[3], atoi(argv[4])), !strcmp(argv[5], "plain"));
    else
        return 2;
    return 0;
}
