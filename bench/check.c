// The seven rules in plain C: one pass over the rows into sums by layer and by slot, then one over
// the chunks and one over the slots.
#include "fetched.h"

uint64_t plain_check(JOB_PARAMETERS, const uint8_t *marks, size_t marks_len, const uint16_t *row_slots,
    size_t row_slots_len, const uint16_t *row_chunks, size_t row_chunks_len, const uint8_t *row_layers,
    size_t row_layers_len, const uint32_t *row_bytes, size_t row_bytes_len)
{
    uint64_t by_layer[4 * CHUNKS], by_slot[FILM_SLOTS];
    uint32_t table[4 * CHUNKS];
    uint16_t begun[CHUNKS];
    uint32_t number = job_refusal(JOB_ARGUMENTS);
    size_t rows = row_slots_len;
    if (number) return refuse(number);
    if (marks_len != chunks || row_chunks_len != rows || row_layers_len != rows || row_bytes_len != rows)
        return refuse(8);
    memset(by_layer, 0, 4 * chunks * sizeof *by_layer);
    memset(by_slot, 0, slots * sizeof *by_slot);
    memset(begun, 255, chunks * sizeof *begun);
    uint32_t late = 0;
    for (size_t k = 0; k < rows; k++) {
        uint32_t t = row_slots[k] - 1u, i = row_chunks[k] - 1u, n = row_layers[k], bytes = row_bytes[k];
        if (t >= slots || i >= chunks || n >= layers || !bytes) return 1;
        by_slot[t] += bytes;
        by_layer[4 * i + n] += bytes;
        if (t < begun[i]) begun[i] = t + 1;
        late |= t >= i * span + delay;
    }
    const uint32_t *size = sizes;
    size_t stride = set_sizes(JOB_ARGUMENTS, table);
    if (stride) size = table;
    int gap = 0, other = 0;
    for (uint32_t i = 0; i < chunks; i++, size += stride) {
        uint32_t mark = 0;
        for (size_t n = 0; n < layers; n++) {
            uint64_t sum = by_layer[4 * i + n];
            if (!sum) continue;
            if (sum != size[n]) return 2;
            mark |= 1 << n;
        }
        gap |= (mark & (mark + 1)) != 0;
        other |= mark != marks[i];
    }
    if (gap) return 3;
    for (size_t t = 0; t < slots; t++)
        if (by_slot[t] > forecast[t]) return 4;
    if (late) return 5;
    if (!few_held(chunks, span, delay, limit / span, slots + 1, begun)) return 6;
    return other ? 7 : 0;
}
