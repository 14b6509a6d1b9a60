// The rows fetched before slot p, tallied: what planning afresh and asking for more both begin
// with, and rule 6 for the checker too.
#pragma once
#include "plain.h"

enum { NEVER = 65535 };

#define FETCHED_PARAMETERS \
    uint16_t from, const uint16_t *row_slots, size_t row_slots_len, const uint16_t *row_chunks, size_t row_chunks_len, \
        const uint8_t *row_layers, size_t row_layers_len, const uint32_t *row_bytes, size_t row_bytes_len
#define FETCHED_ARGUMENTS \
    from, row_slots, row_slots_len, row_chunks, row_chunks_len, row_layers, row_layers_len, row_bytes, row_bytes_len

struct fetched {
    uint32_t left[4 * CHUNKS]; // bytes of each layer not fetched yet, four places a chunk
    uint16_t begun[CHUNKS];    // slot of the first row, or NEVER
    uint8_t level[CHUNKS];     // layers that are whole
};

// 8, 21 of rows handed.
static inline uint32_t rows_refusal(size_t slots, FETCHED_PARAMETERS)
{
    (void)row_chunks, (void)row_layers, (void)row_bytes;
    uint32_t late = 0;
    if (row_chunks_len != row_slots_len || row_layers_len != row_slots_len || row_bytes_len != row_slots_len) return 8;
    if (from < 1 || from > slots) return 21;
    for (size_t k = 0; k < row_slots_len; k++) late |= row_slots[k] >= from;
    return late ? 21 : 0;
}

// Rules 1 and 5 row by row, and the sums by slot and by layer.
static inline int tally(JOB_PARAMETERS, FETCHED_PARAMETERS, uint64_t *by_slot, uint64_t *by_layer, uint16_t *begun)
{
    (void)limit, (void)sizes, (void)size_chunks, (void)size_layers, (void)size_bytes, (void)forecast, (void)slots;
    (void)size_chunks_len, (void)size_layers_len, (void)size_bytes_len;
    (void)row_chunks_len, (void)row_layers_len, (void)row_bytes_len;
    memset(by_slot, 0, from * sizeof *by_slot);
    memset(by_layer, 0, 4 * chunks * sizeof *by_layer);
    memset(begun, 255, chunks * sizeof *begun);
    for (size_t k = 0; k < row_slots_len; k++) {
        uint32_t t = row_slots[k], i = row_chunks[k] - 1u, n = row_layers[k], bytes = row_bytes[k];
        if (!t || i >= chunks || n >= layers || !bytes || t > i * span + delay) return 0;
        by_slot[t] += bytes;
        by_layer[4 * i + n] += bytes;
        if (t < begun[i]) begun[i] = t;
    }
    return 1;
}

// Rule 6, where no chunk is begun in slot `from` or later, so that from there on no more are held.
static inline int few_held(
    uint32_t chunks, uint32_t span, uint32_t delay, int32_t held, uint32_t from, const uint16_t *begun)
{
    int16_t change[FILM_SLOTS + 1];
    memset(change, 0, from * sizeof *change);
    for (uint32_t i = 0; i < chunks; i++) {
        uint32_t due = i * span + delay;
        if (begun[i] >= due) continue;
        change[begun[i]]++;
        if (due < from) change[due]--;
    }
    for (uint32_t t = 1; t < from; t++)
        if ((held -= change[t]) < 0) return 0;
    return 1;
}

// 0 where the rows break a rule that is refused with 22.
static inline int take_fetched(JOB_PARAMETERS, FETCHED_PARAMETERS, struct fetched *f)
{
    uint64_t by_slot[FILM_SLOTS + 1], by_layer[4 * CHUNKS];
    uint32_t table[4 * CHUNKS], latest = 0;
    if (!tally(JOB_ARGUMENTS, FETCHED_ARGUMENTS, by_slot, by_layer, f->begun)) return 0;
    size_t stride = set_sizes(JOB_ARGUMENTS, table);
    const uint32_t *size = stride ? table : sizes;
    for (uint32_t i = 0; i < chunks; i++, size += stride) {
        uint32_t mark = 0;
        for (size_t n = 0; n < layers; n++) {
            uint64_t sum = by_layer[4 * i + n];
            if (sum > size[n]) return 0;
            f->left[4 * i + n] = size[n] - sum;
            mark |= (sum == size[n]) << n;
        }
        if (mark & (mark + 1)) return 0;
        f->level[i] = (mark > 0) + (mark > 1) + (mark > 3) + (mark > 7);
        if (f->begun[i] == NEVER) continue;
        if (f->begun[i] < latest) return 0;
        latest = f->begun[i];
    }
    for (uint32_t t = 1; t < from; t++)
        if (by_slot[t] > forecast[t - 1]) return 0;
    return few_held(chunks, span, delay, limit / span, from, f->begun);
}
