// The calls once more in plain C, to measure the proved ones against: each has its call's
// prototype, gives its answer and leaves every lent byte as the call does, refusals too. No proof.
// What has to be looked up by more than one of them stands here.
#pragma once
#include "film_most.h"
#include <string.h>

__typeof__(film_read_job) plain_read_job;
__typeof__(film_write_job) plain_write_job;
__typeof__(film_read_plan) plain_read_plan;
__typeof__(film_write_plan) plain_write_plan;
__typeof__(film_plan) plain_plan;
__typeof__(film_check) plain_check;
__typeof__(film_report) plain_report;
__typeof__(film_reasons) plain_reasons;
__typeof__(film_wait) plain_wait;
__typeof__(film_replan) plain_replan;
__typeof__(film_live) plain_live;
__typeof__(film_search) plain_search;
__typeof__(film_most) plain_most;
__typeof__(film_read_trace) plain_read_trace;
__typeof__(film_write_trace) plain_write_trace;
__typeof__(film_plan_file) plain_plan_file;

enum { CHUNKS = FILM_MARKS, MOST_BYTES = 16777216 };

#define JOB_PARAMETERS \
    uint16_t chunks, uint16_t span, uint16_t delay, uint16_t limit, const uint32_t *sizes, size_t layers, \
        const uint16_t *size_chunks, size_t size_chunks_len, const uint8_t *size_layers, size_t size_layers_len, \
        const uint32_t *size_bytes, size_t size_bytes_len, const uint32_t *forecast, size_t slots
#define JOB_ARGUMENTS \
    chunks, span, delay, limit, sizes, layers, size_chunks, size_chunks_len, size_layers, size_layers_len, size_bytes, \
        size_bytes_len, forecast, slots

static inline uint64_t refuse(uint32_t number)
{
    return ((uint64_t)1 << 32) + number;
}

// 5 of a programme.
static inline int bad_programme(uint32_t chunks, uint32_t span, uint32_t delay)
{
    return chunks - 1 >= 500 || span - 1 >= 60 || delay - 1 >= 3600 || (chunks - 1) * span + delay > 3600;
}

// 18 of an SZ, after one that stands in a table of four sizes a chunk at `last`; chunk 1's are
// those up to 7, so that no SZ names it.
enum { CHUNK_1 = 7 };
static inline int bad_sz(uint32_t chunk, uint32_t layer, uint32_t bytes, uint32_t last, uint32_t chunks,
    const uint32_t *sizes, size_t layers)
{
    return layer >= layers || chunk > chunks || chunk * 4 + layer <= last || bytes - 1 >= MOST_BYTES ||
           bytes == sizes[layer];
}

// 6, 18 of a film of so many chunks, or 0.
static inline uint32_t sizes_refusal(uint32_t chunks, const uint32_t *sizes, size_t layers, const uint16_t *size_chunks,
    size_t size_chunks_len, const uint8_t *size_layers, size_t size_layers_len, const uint32_t *size_bytes,
    size_t size_bytes_len)
{
    if (layers - 1 >= 4) return 6;
    for (size_t n = 0; n < layers; n++)
        if (sizes[n] - 1 >= MOST_BYTES) return 6;
    if (size_layers_len != size_chunks_len || size_bytes_len != size_chunks_len) return 18;
    uint32_t last = CHUNK_1;
    for (size_t k = 0; k < size_chunks_len; k++) {
        uint32_t i = size_chunks[k], n = size_layers[k];
        if (bad_sz(i, n, size_bytes[k], last, chunks, sizes, layers)) return 18;
        last = i * 4 + n;
    }
    return 0;
}

// Some slot has more bytes than there can be. Seldom has one just as many, and is looked for.
static inline int bad_bytes(const uint32_t *forecast, size_t slots)
{
    uint32_t any = 0;
    for (size_t t = 0; t < slots; t++) any |= forecast[t];
    for (size_t t = 0; any >= MOST_BYTES && t < slots; t++)
        if (forecast[t] > MOST_BYTES) return 1;
    return 0;
}

// 5, 6, 18, 7 of a job, or 0.
static inline uint32_t job_refusal(JOB_PARAMETERS)
{
    (void)limit;
    if (bad_programme(chunks, span, delay)) return 5;
    uint32_t number = sizes_refusal(chunks, sizes, layers, size_chunks, size_chunks_len, size_layers, size_layers_len,
        size_bytes, size_bytes_len);
    if (number) return number;
    return slots != (size_t)(chunks - 1) * span + delay || bad_bytes(forecast, slots) ? 7 : 0;
}

// The table of four sizes a chunk, of film that has SZs. Answers how far a chunk's sizes stand from
// the next one's: 0, and no table, for film of equal chunks.
static inline size_t set_sizes(JOB_PARAMETERS, uint32_t *table)
{
    (void)span, (void)delay, (void)limit, (void)size_layers_len, (void)size_bytes_len, (void)forecast, (void)slots;
    uint32_t own[4] = {0};
    if (!size_chunks_len) return 0;
    memcpy(own, sizes, layers * sizeof *sizes);
    for (size_t i = 0; i < chunks; i++) memcpy(table + 4 * i, own, sizeof own);
    for (size_t k = 0; k < size_chunks_len; k++) table[4 * size_chunks[k] - 4 + size_layers[k]] = size_bytes[k];
    return 4;
}
