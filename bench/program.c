// The whole program film_plan in plain C: a job on standard input, its plan file on standard
// output, or `refused n`.
#include "plain.h"
#include <stdio.h>
#include <unistd.h>

// The header wants the archive it belongs to; nothing of it is linked here.
uint64_t film_archive_of_version_1(void) { return FILM_VERSION; }

static size_t read_full(uint8_t *at, size_t room)
{
    size_t n = 0;
    for (ssize_t got; n < room && (got = read(0, at + n, room - n)) > 0;) n += got;
    return n;
}

static int write_all(const uint8_t *at, size_t n)
{
    for (ssize_t put; n; at += put, n -= put)
        if ((put = write(1, at, n)) <= 0) return 1;
    return 0;
}

int main(void)
{
    static uint8_t file[FILM_FILE + 1], out[FILM_PLAN_FILE];
    uint64_t answer = plain_plan_file(file, read_full(file, sizeof file), out, sizeof out);
    uint32_t number = film_refused(answer);
    return write_all(out, number ? (size_t)sprintf((char *)out, "refused %u\n", number) : answer);
}
