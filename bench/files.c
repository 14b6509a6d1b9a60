// Job and plan files in plain C: one pass over a job file into tables of its own, which go to the
// lent ones when nothing is refused any more; a plan file is looked through and then taken.
#include "plain.h"

#define MARK(a, b) ((a) | (b) << 8)
enum { PG = MARK('P', 'G'), LY = MARK('L', 'Y'), SZ = MARK('S', 'Z'), BW = MARK('B', 'W'), EN = MARK('E', 'N') };
enum { KP = MARK('K', 'P'), FT = MARK('F', 'T') };

static inline uint32_t get_h(const uint8_t *at)
{
    uint16_t x;
    memcpy(&x, at, 2);
    return x;
}

static inline uint32_t get_w(const uint8_t *at)
{
    uint32_t x;
    memcpy(&x, at, 4);
    return x;
}

static inline void put_h(uint8_t *at, uint16_t x) { memcpy(at, &x, 2); }
static inline void put_w(uint8_t *at, uint32_t x) { memcpy(at, &x, 4); }

// A job file's records so far: the last mark's place in the sequence, and the tables. Rising and in
// range, there are never more SZs than theirs hold; `uneven` is refusal 18, which waits for EN.
struct reading {
    uint32_t place, uneven;
    size_t layers, szs, slots;
    uint16_t programme[4], sz_chunk[FILM_SZS];
    uint8_t sz_layer[FILM_SZS];
    uint32_t size[FILM_LAYERS], sz_bytes[FILM_SZS], slot[FILM_SLOTS];
};

// The runs that stand one after the other, the first of them whole; where they end, or NULL and the
// refusal.
static inline const uint8_t *take_runs(struct reading *r, const uint8_t *at, const uint8_t *end, uint32_t *refusal)
{
    uint64_t run = r->place == 4 ? r->slot[r->slots - 1] : ~(uint64_t)0;
    size_t slots = r->slots;
    *refusal = 17;
    if (r->place == 0) return NULL;
    do {
        size_t count = get_h(at + 2);
        uint32_t bytes = get_w(at + 4);
        if (bytes == run) return NULL;
        if (count - 1 >= FILM_SLOTS - slots || bytes > MOST_BYTES) {
            *refusal = 7;
            return NULL;
        }
        r->slot[slots] = bytes;
        for (size_t k = 1; k < count; k++) r->slot[slots + k] = bytes;
        slots += count;
        run = bytes;
        at += 8;
    } while (end - at >= 8 && get_h(at) == BW);
    r->slots = slots;
    r->place = 4;
    return at;
}

// The same of SZs, up to the first that is refused at EN.
static inline const uint8_t *take_szs(struct reading *r, const uint8_t *at, const uint8_t *end, uint32_t *refusal)
{
    size_t szs = r->szs;
    uint32_t last = szs ? r->sz_chunk[szs - 1] * 4 + r->sz_layer[szs - 1] : CHUNK_1;
    *refusal = 17;
    if (r->place == 0 || r->place > 3) return NULL;
    r->place = 3;
    do {
        uint32_t i = get_h(at + 2), n = at[4], bytes = get_w(at + 5);
        at += 9;
        r->uneven |= bad_sz(i, n, bytes, last, r->programme[0], r->size, r->layers);
        if (r->uneven) break;
        r->sz_chunk[szs] = i;
        r->sz_layer[szs] = n;
        r->sz_bytes[szs++] = bytes;
        last = i * 4 + n;
    } while (end - at >= 9 && get_h(at) == SZ);
    r->szs = szs;
    return at;
}

static inline uint32_t take_layer(struct reading *r, uint32_t bytes)
{
    if (r->place == 0 || r->place > 2) return 17;
    if (bytes - 1 >= MOST_BYTES || r->layers == FILM_LAYERS) return 6;
    r->size[r->layers++] = bytes;
    r->place = 2;
    return 0;
}

static inline uint32_t take_programme(struct reading *r, const uint8_t *fields)
{
    if (r->place) return 4;
    memcpy(r->programme, fields, sizeof r->programme);
    r->place = 1;
    return bad_programme(r->programme[0], r->programme[1], r->programme[2]) ? 5 : 0;
}

// Every record: 0, or the refusal.
static uint32_t read_records(struct reading *r, const uint8_t *at, const uint8_t *end)
{
    uint32_t refusal = 0;
    for (;;) {
        if (end - at < 2) return 1;
        uint32_t mark = get_h(at);
        size_t bytes = mark == BW ? 8 : mark == SZ ? 9 : mark == LY ? 6 : mark == PG ? 10 : mark == EN ? 2 : 0;
        if (!bytes) return 2;
        if ((size_t)(end - at) < bytes) return 1;
        if (mark == EN) break;
        if (mark == BW || mark == SZ) {
            at = mark == BW ? take_runs(r, at, end, &refusal) : take_szs(r, at, end, &refusal);
            if (!at) return refusal;
            continue;
        }
        refusal = mark == LY ? take_layer(r, get_w(at + 2)) : take_programme(r, at + 2);
        if (refusal) return refusal;
        at += bytes;
    }
    const uint16_t *p = r->programme;
    if (at + 2 != end) return 3;
    if (r->place == 0) return 4;
    if (r->layers == 0) return 6;
    if (r->uneven) return 18;
    return r->slots == (size_t)(p[0] - 1) * p[1] + p[2] ? 0 : 7;
}

uint64_t plain_read_job(const uint8_t *file, size_t file_len, uint16_t *programme, size_t programme_len,
    uint64_t *lengths, size_t lengths_len, uint32_t *sizes, size_t sizes_len, uint16_t *size_chunks,
    size_t size_chunks_len, uint8_t *size_layers, size_t size_layers_len, uint32_t *size_bytes, size_t size_bytes_len,
    uint32_t *forecast, size_t forecast_len)
{
    struct reading r;
    r.place = r.uneven = 0;
    r.layers = r.szs = r.slots = 0;
    if (file_len > FILM_FILE) return refuse(9);
    uint32_t number = read_records(&r, file, file + file_len);
    if (number) return refuse(number);
    if (programme_len < FILM_PROGRAMME || lengths_len < FILM_LENGTHS || sizes_len < r.layers ||
        size_chunks_len < r.szs || size_layers_len < r.szs || size_bytes_len < r.szs || forecast_len < r.slots)
        return refuse(11);
    memcpy(programme, r.programme, sizeof r.programme);
    lengths[0] = r.layers;
    lengths[1] = r.szs;
    memcpy(sizes, r.size, r.layers * sizeof *sizes);
    memcpy(size_chunks, r.sz_chunk, r.szs * sizeof *size_chunks);
    memcpy(size_layers, r.sz_layer, r.szs);
    memcpy(size_bytes, r.sz_bytes, r.szs * sizeof *size_bytes);
    memcpy(forecast, r.slot, r.slots * sizeof *forecast);
    return r.slots;
}

uint64_t plain_write_job(JOB_PARAMETERS, uint8_t *out, size_t out_len)
{
    uint32_t number = job_refusal(JOB_ARGUMENTS);
    if (number) return refuse(number);
    uint32_t runs = 1;
    for (size_t t = 1; t < slots; t++) runs += forecast[t] != forecast[t - 1];
    size_t bytes = 12 + 6 * layers + 9 * size_chunks_len + 8 * runs;
    if (out_len < bytes) return refuse(11);
    put_h(out, PG);
    put_h(out + 2, chunks);
    put_h(out + 4, span);
    put_h(out + 6, delay);
    put_h(out + 8, limit);
    out += 10;
    for (size_t n = 0; n < layers; n++, out += 6) {
        put_h(out, LY);
        put_w(out + 2, sizes[n]);
    }
    for (size_t k = 0; k < size_chunks_len; k++, out += 9) {
        put_h(out, SZ);
        put_h(out + 2, size_chunks[k]);
        out[4] = size_layers[k];
        put_w(out + 5, size_bytes[k]);
    }
    for (size_t t = 0; t < slots; out += 8) {
        size_t from = t;
        uint32_t run = forecast[t];
        do t++;
        while (t < slots && forecast[t] == run);
        put_h(out, BW);
        put_h(out + 2, t - from);
        put_w(out + 4, run);
    }
    put_h(out, EN);
    return bytes;
}

uint64_t plain_read_plan(JOB_PARAMETERS, const uint8_t *file, size_t file_len, uint8_t *marks, size_t marks_len,
    uint16_t *row_slots, size_t row_slots_len, uint16_t *row_chunks, size_t row_chunks_len, uint8_t *row_layers,
    size_t row_layers_len, uint32_t *row_bytes, size_t row_bytes_len)
{
    uint32_t number = job_refusal(JOB_ARGUMENTS);
    if (number) return refuse(number);
    if (file_len > FILM_FILE) return refuse(9);
    const uint8_t *at = file, *end = file + file_len;
    uint32_t kept = 0;
    size_t rows = 0;
    for (;;) {
        if (end - at < 2) return refuse(1);
        uint32_t mark = get_h(at);
        if (mark == FT) {
            if (end - at < 11) return refuse(1);
            const uint8_t *from = at;
            do at += 11;
            while (end - at >= 11 && get_h(at) == FT);
            rows += (at - from) / 11;
        } else if (mark == KP) {
            if (end - at < 5) return refuse(1);
            if (rows || kept == chunks || get_h(at + 2) != kept + 1) return refuse(8);
            kept++;
            at += 5;
        } else if (mark == EN) {
            at += 2;
            break;
        } else {
            return refuse(2);
        }
    }
    if (at != end) return refuse(3);
    if (kept != chunks) return refuse(8);
    if (marks_len < chunks || row_slots_len < rows || row_chunks_len < rows || row_layers_len < rows ||
        row_bytes_len < rows)
        return refuse(11);
    at = file;
    for (uint32_t i = 0; i < chunks; i++, at += 5) marks[i] = at[4];
    for (size_t k = 0; k < rows; k++, at += 11) {
        row_slots[k] = get_h(at + 2);
        row_chunks[k] = get_h(at + 4);
        row_layers[k] = at[6];
        row_bytes[k] = get_w(at + 7);
    }
    return rows;
}

uint64_t plain_write_plan(JOB_PARAMETERS, const uint8_t *marks, size_t marks_len, const uint16_t *row_slots,
    size_t row_slots_len, const uint16_t *row_chunks, size_t row_chunks_len, const uint8_t *row_layers,
    size_t row_layers_len, const uint32_t *row_bytes, size_t row_bytes_len, uint8_t *out, size_t out_len)
{
    uint32_t number = job_refusal(JOB_ARGUMENTS);
    size_t rows = row_slots_len;
    if (number) return refuse(number);
    if (marks_len != chunks || row_chunks_len != rows || row_layers_len != rows || row_bytes_len != rows)
        return refuse(8);
    if (rows > FILM_FILE_ROWS) return refuse(9);
    size_t bytes = 5 * (size_t)chunks + 11 * rows + 2;
    if (bytes > FILM_FILE) return refuse(9);
    if (out_len < bytes) return refuse(11);
    for (uint32_t i = 0; i < chunks; i++, out += 5) {
        put_h(out, KP);
        put_h(out + 2, i + 1);
        out[4] = marks[i];
    }
    for (size_t k = 0; k < rows; k++, out += 11) {
        put_h(out, FT);
        put_h(out + 2, row_slots[k]);
        put_h(out + 4, row_chunks[k]);
        out[6] = row_layers[k];
        put_w(out + 7, row_bytes[k]);
    }
    put_h(out, EN);
    return bytes;
}
