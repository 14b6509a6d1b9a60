// What the plan carries, for whoever lists its rows or tells about it.
#pragma once
#include "plain.h"

struct settled {
    uint32_t held;        // H
    uint32_t first;       // kept chunks stand in playing order at the end of the tables from here on
    uint64_t total;       // the whole forecast
    int most;             // request 9 settled the bases
    // Layer n of chunk i has size[stride * (i - 1) + n] bytes: equal film needs no table.
    const uint32_t *size;
    size_t stride;
    uint32_t table[4 * FILM_MARKS];
    uint64_t after[FILM_MARKS]; // by chunk: the forecast after its due slot
    // By place, of kept chunks: number, due slot, layers carried and their bytes, the forecast
    // after the due slot and from it on.
    uint16_t id[FILM_MARKS], due[FILM_MARKS];
    uint8_t level[FILM_MARKS];
    uint64_t bytes[FILM_MARKS], behind[FILM_MARKS], from[FILM_MARKS];
    uint16_t counts[FILM_COUNTS];
};

#define PLAN_PARAMETERS \
    uint8_t *marks, size_t marks_len, uint16_t *out_slots, size_t out_slots_len, uint16_t *out_chunks, \
        size_t out_chunks_len, uint8_t *out_layers, size_t out_layers_len, uint32_t *out_bytes, size_t out_bytes_len, \
        uint16_t *counts, size_t counts_len
#define PLAN_ARGUMENTS \
    marks, marks_len, out_slots, out_slots_len, out_chunks, out_chunks_len, out_layers, out_layers_len, out_bytes, \
        out_bytes_len, counts, counts_len

static inline uint64_t more(uint64_t a, uint64_t b) { return a < b ? b : a; }
static inline uint64_t less(uint64_t a, uint64_t b) { return a < b ? a : b; }

// Of a job that is not refused: the plan, or its bases alone.
void settle(JOB_PARAMETERS, struct settled *s);
void settle_bases(JOB_PARAMETERS, struct settled *s);

// H, the sizes and the forecast's sums.
void begin(JOB_PARAMETERS, struct settled *s);

// Request 9's bases.
void keep_most(uint32_t chunks, uint32_t span, uint32_t delay, const uint32_t *forecast, struct settled *s);

// Chunk i, due in slot `due`, is kept at place p with its base.
static inline void keep(
    struct settled *s, uint32_t p, uint32_t i, uint32_t due, uint32_t base, const uint32_t *forecast)
{
    s->id[p] = i;
    s->due[p] = due;
    s->level[p] = 1;
    s->bytes[p] = base;
    s->behind[p] = s->after[i - 1];
    s->from[p] = s->after[i - 1] + forecast[due - 1];
}

// The layers above the kept bases, and all counts.
void keep_layers(size_t layers, struct settled *s);

// The plan goes to the lent slices if they hold it; the number of rows, or 11.
uint64_t list_plan(const struct settled *s, uint32_t chunks, const uint32_t *forecast, PLAN_PARAMETERS);

// One layer above the base, of kept chunks that have the layer below: forward what can be had by
// each due slot, then back what is needed. Answers how many carry it.
uint32_t keep_layer(uint32_t n, struct settled *s);
