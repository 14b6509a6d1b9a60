// Link traces in plain C: a line's digits are read one by one, and written once a slot and then
// copied twice as many at a time.
#include "plain.h"

// The number that stands in front, of so many digits at the most; how many they are.
static inline size_t take_number(const uint8_t *at, size_t most, uint32_t *number)
{
    uint32_t time = 0, digit;
    size_t n = 0;
    for (; n < most && (digit = at[n] - '0') < 10; n++) time = time * 10 + digit;
    *number = time;
    return n;
}

uint64_t plain_read_trace(const uint8_t *trace, size_t trace_len, size_t slots, uint32_t *forecast, size_t forecast_len)
{
    uint64_t lines[FILM_SLOTS];
    const uint8_t *at = trace, *end = trace + trace_len;
    uint32_t last = 0, time;
    if (slots - 1 >= FILM_SLOTS) return refuse(7);
    memset(lines, 0, slots * sizeof *lines);
    while (at != end) {
        // Where the longest line would be there, the end is not looked for at each digit.
        size_t n = end - at >= 8 ? take_number(at, 7, &time) : take_number(at, end - at, &time);
        at += n;
        if (n == 0 || n > 7 || at == end || *at++ != '\n' || time < last) return refuse(14);
        if (time / 1000 < slots) lines[time / 1000]++;
        last = time;
    }
    for (size_t t = 0; t < slots; t++)
        if (lines[t] > MOST_BYTES / 1500) return refuse(15);
    if (forecast_len < slots) return refuse(11);
    for (size_t t = 0; t < slots; t++) forecast[t] = 1500 * lines[t];
    return slots;
}

// The line of a slot's first millisecond: "0", or the slots before it and three zeros.
static size_t put_line(uint32_t t, uint8_t *line)
{
    uint8_t digits[4];
    size_t n = 0, k = 0;
    do digits[n++] = '0' + t % 10;
    while (t /= 10);
    int zeros = n > 1 || digits[0] != '0' ? 3 : 0;
    while (n) line[k++] = digits[--n];
    while (zeros--) line[k++] = '0';
    line[k++] = '\n';
    return k;
}

uint64_t plain_write_trace(const uint32_t *forecast, size_t slots, uint8_t *out, size_t out_len)
{
    uint8_t line[8];
    size_t bytes = 0;
    if (slots - 1 >= FILM_SLOTS) return refuse(7);
    for (size_t t = 0; t < slots; t++) {
        if (forecast[t] > MOST_BYTES || forecast[t] % 1500) return refuse(15);
        size_t width = t == 0 ? 2 : t < 10 ? 5 : t < 100 ? 6 : t < 1000 ? 7 : 8;
        bytes += forecast[t] / 1500 * width;
    }
    if (out_len < bytes) return refuse(11);
    for (size_t t = 0; t < slots; t++) {
        if (!forecast[t]) continue;
        size_t done = put_line(t, line), all = forecast[t] / 1500 * done;
        memcpy(out, line, done);
        for (; done < all; done *= 2) memcpy(out + done, out, done < all - done ? done : all - done);
        out += all;
    }
    return bytes;
}
