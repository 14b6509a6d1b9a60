/* Plans a job file: reads it, plans it, and prints the plan, its report, and the reason under each
 * layer that it lacks. With a second name, writes the plan file. examples/run runs it on job A. */
#include "film_planner.h"
#include <inttypes.h>
#include <stdio.h>
#include <stdlib.h>

/* A result, or the refusal in the documents' words and the end. */
static uint64_t must(const char *what, uint64_t answer)
{
    uint32_t refusal = film_refused(answer);
    if (!refusal) return answer;
    fprintf(stderr, "%s refused %" PRIu32 ": %s\n", what, refusal, film_sentence(refusal));
    exit(1);
}

/* One byte more than a file may have, so that a longer one is seen to be. */
static uint8_t file[FILM_FILE + 1], text[FILM_REASONS], plan_file[FILM_FILE];
static struct film_store store;
static struct film_plan plan;

static size_t read_file(const char *path)
{
    FILE *in = fopen(path, "rb");
    if (!in) {
        perror(path);
        exit(1);
    }
    size_t length = fread(file, 1, sizeof file, in);
    fclose(in);
    return length;
}

static void write_file(const char *path, size_t length)
{
    FILE *out = fopen(path, "wb");
    if (!out || fwrite(plan_file, 1, length, out) != length || fclose(out)) {
        perror(path);
        exit(1);
    }
}

int main(int argc, char **argv)
{
    size_t length = read_file(argc > 1 ? argv[1] : "samples/a.job");
    struct film_job job = {0};
    must("the job file is", film_read_job_of(file, length, &store, &job));
    printf("job: %u chunks of %u slots, delay %u, limit %u, %zu layers, %zu SZs, %zu slots\n",
           job.chunks, job.span, job.delay, job.limit, job.layers, job.szs, job.slots);

    must("the plan is", film_plan_of(&job, &plan));
    printf("marks");
    for (size_t i = 0; i < job.chunks; i++) printf(" %u", plan.marks[i]);
    printf("\n");
    for (size_t k = 0; k < plan.list.rows; k++)
        printf("slot %u chunk %u layer %u bytes %" PRIu32 "\n", plan.list.slots[k],
               plan.list.chunks[k], plan.list.layers[k], plan.list.bytes[k]);

    uint64_t written = must("the report is", film_report_of(&job, text, sizeof text));
    fwrite(text, 1, written, stdout);
    written = must("the reasons are", film_reasons_of(&job, text, sizeof text));
    fwrite(text, 1, written, stdout);

    if (argc > 2) {
        uint64_t answer = film_write_plan_of(&job, &plan, plan_file, sizeof plan_file);
        write_file(argv[2], must("the plan file is", answer));
    }
    return 0;
}
