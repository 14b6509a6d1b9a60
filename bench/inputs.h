// What the calls of the table are handed and lent, and every call beside its twin in plain C.
#pragma once
#include "plain.h"

enum { TRACE_LINES = 1000000, TRACE_BYTES = 8 * TRACE_LINES };

struct in {
    struct film_store film;
    struct film_job job;
    uint8_t file[FILM_FILE + 16], plan_file[FILM_FILE + 16];
    size_t file_len, plan_len;
    struct film_plan plan; // to be written, checked
    size_t marks;          // how many of its marks are handed
    // During the act: slot p, the rows before it, the forecast from p on, a rate.
    uint16_t from;
    struct film_list fetched;
    uint32_t onward[FILM_SLOTS + 1], rate;
    size_t onward_len;
    uint32_t budget, passes;
    uint8_t trace[TRACE_BYTES];
    uint32_t trace_forecast[FILM_SLOTS + 1];
    size_t trace_len, trace_slots;
};
extern struct in in;

// Room for the largest results and some more.
struct out {
    uint16_t programme[FILM_PROGRAMME + 1];
    uint64_t lengths[FILM_LENGTHS + 1];
    struct film_store film;
    struct film_plan plan;
    struct film_pieces pieces;
    uint32_t walk[FILM_WALK + 1];
    uint16_t bounds[FILM_BOUNDS + 1];
    uint8_t text[FILM_REASONS + 16];
};
extern struct out out;
extern uint8_t out_trace[TRACE_BYTES];
// What it holds after a call means nothing, so that only a refusal has to leave it as it was.
extern uint64_t work[FILM_MOST_WORK];

struct call {
    const char *name;
    uint64_t (*proved)(void), (*plain)(void);
};
extern const struct call calls[];
extern const size_t call_count;

// No more elements than this are lent.
extern size_t room;

extern uint32_t seed;
uint32_t next(uint32_t below);

// The film's plan and both files, and what was fetched before slot p: the plan's own rows, or for
// `live` what came of the asks of each slot before, as much as its forecast says.
void make_files(void);
void fetch_plan(uint16_t from);
void fetch_live(uint16_t from);

// What the film of that name is.
const char *words_of(const char *film);

// Most pictures on a long film, the k-th of those on which fronts fill up.
const struct call *ready_long(uint32_t k);

// The call on the film of that name, at slot p if there is one.
const struct call *ready(const char *call, const char *film, uint16_t from);

// Answers and lent bytes of every call, on its own rows and on damaged input; exits at a
// difference.
void compare(const struct call *call);
void compare_damaged(void);
