// The shortest wait in plain C: the forecast's sums once, and a pass over the chunks for each s.
#include "plain.h"

// From the last chunk down: what the forecast may have brought at most when each begins.
static int keeps_all(size_t chunks, size_t span, size_t held, const uint64_t *upto, const uint32_t *base, size_t stride,
    uint64_t *begins)
{
    const uint64_t *at = upto + (chunks - 1) * span;
    uint64_t begin = *at;
    for (size_t q = chunks; q--; at -= span) {
        if (*at < begin) begin = *at;
        if (begin < base[stride * q]) return 0;
        begins[q] = begin -= base[stride * q];
        if (begins[q + held] < at[-1]) return 0;
    }
    return 1;
}

uint64_t plain_wait(uint16_t chunks, uint16_t span, uint16_t limit, const uint32_t *sizes, size_t layers,
    const uint16_t *size_chunks, size_t size_chunks_len, const uint8_t *size_layers, size_t size_layers_len,
    const uint32_t *size_bytes, size_t size_bytes_len, const uint32_t *forecast, size_t slots)
{
    uint64_t upto[FILM_SLOTS + 1], begins[2 * CHUNKS];
    uint32_t table[4 * CHUNKS];
    if (bad_programme(chunks, 1, 1) || bad_programme(1, span, 1)) return refuse(5);
    uint32_t number = sizes_refusal(chunks, sizes, layers, size_chunks, size_chunks_len, size_layers, size_layers_len,
        size_bytes, size_bytes_len);
    if (number) return refuse(number);
    if (slots - 1 >= FILM_SLOTS || bad_bytes(forecast, slots)) return refuse(7);
    size_t held = limit / span < CHUNKS ? limit / span : CHUNKS, film = (size_t)(chunks - 1) * span;
    size_t stride = set_sizes(chunks, span, 1, limit, sizes, layers, size_chunks, size_chunks_len, size_layers,
        size_layers_len, size_bytes, size_bytes_len, forecast, slots, table);
    upto[0] = 0;
    for (size_t t = 0; t < slots; t++) upto[t + 1] = upto[t] + forecast[t];
    // Nothing is held back by the last ones.
    for (size_t q = 0; q < CHUNKS; q++) begins[chunks + q] = ~(uint64_t)0;
    for (size_t s = 1; film + s <= slots; s++)
        if (keeps_all(chunks, span, held, upto + s, stride ? table : sizes, stride, begins)) return s;
    return refuse(16);
}
