// A job file's plan file in plain C: read, planned, written.
#include "plain.h"

uint64_t plain_plan_file(const uint8_t *file, size_t file_len, uint8_t *out, size_t out_len)
{
    struct film_store film;
    struct film_plan plan;
    uint16_t p[FILM_PROGRAMME];
    uint64_t n[FILM_LENGTHS];
    uint64_t slots = plain_read_job(file, file_len, p, FILM_PROGRAMME, n, FILM_LENGTHS, film.sizes, FILM_LAYERS,
        film.size_chunks, FILM_SZS, film.size_layers, FILM_SZS, film.size_bytes, FILM_SZS, film.forecast, FILM_SLOTS);
    if (film_refused(slots)) return slots;
#define JOB \
    p[0], p[1], p[2], p[3], film.sizes, n[0], film.size_chunks, n[1], film.size_layers, n[1], film.size_bytes, n[1], \
        film.forecast, slots
#define ROWS(n) plan.list.slots, n, plan.list.chunks, n, plan.list.layers, n, plan.list.bytes, n
    uint64_t rows = plain_plan(JOB, plan.marks, FILM_MARKS, ROWS(FILM_ROWS), plan.counts, FILM_COUNTS);
    if (film_refused(rows)) return rows;
    return plain_write_plan(JOB, plan.marks, p[0], ROWS(rows), out, out_len);
}
