/* The layered film planner of the winch desk, for callers in C and C++.
 *
 * This header says all there is to know to link the proved library, on x86-64 Linux alone.
 * `tools/archive` builds the archive, target/staticlib/libfilm_planner.a; `tools/install PREFIX`
 * installs it with this header, a shared object, and files for pkg-config and CMake. Link it after
 * your own files; nothing else is needed. Every call is proved to answer what is said here, for
 * every input, in its source; the compiler that makes the archive is trusted. No call has a
 * precondition on the numbers and slices it is handed, none keeps anything, none allocates, and
 * each ends.
 *
 * TWO LAYERS. The calls themselves take numbers and slices alone, a slice as a pointer and a
 * length, up to 37 arguments. At the end of this header stands an inline layer over structs, each
 * call by its name with _of behind: film_plan_of(&job, &plan). Begin there; examples/ has programs.
 * In it
 *   - a `struct film_job` that is zero but for what the job has is right, without SZs for film of
 *     equal chunks: a slice of length 0 may be null;
 *   - what a call hands over goes to structs with room for the largest result, so that refusal 11
 *     arises for text and files alone, which go to buffers of the caller's, and the number of rows
 *     is set by the call that writes them;
 *   - marks are handed as many as the job has chunks, which film_check wants exactly.
 *
 * WHAT THE CALLER OWES a call is what C owes any function: a pointer with at least so many elements
 * behind it as its length says, aligned for its type, and no two slices of one call that overlap,
 * if one of them is lent for writing. The calls themselves want no null, for a slice of length 0
 * neither: the language that they are proved in has none. The compiler warns where it sees one; the
 * inline functions put another address in its place.
 * Arguments are narrow, and C cuts what is wider without a word: 65,539 chunks become 3 before the
 * call sees them. Compile with -Wconversion, which warns of it.
 * An answer that nobody looks at may be a refusal: compilers warn of that by themselves.
 * The calls may run on several threads at once, if no thread has a slice that another one's call is
 * lent for writing: a call's slices are its own until it returns. None takes more than 256 KiB of
 * stack (bench/run_stack measures it: film_reasons_file takes the most, 210 KiB). On any job each
 * takes a few hundredths of a second at the most, but for film_search, see there; time goes by
 * length where a link trace or a list may have any.
 *
 * ANSWERS. Every call answers one 64-bit number:
 *
 *     the result, which is below 2^32, or 2^32 and the refusal's number more.
 *
 * No result can be mistaken for a refusal. `film_refused(answer)` is the refusal's number, or 0.
 * Whatever else a call hands over, it writes to the start of slices that the caller lends: `T *x,
 * size_t x_len`, without const. If one of them is shorter than what is to be written to it, the
 * call refuses with 11, after all other refusals (the meter's calls, whose storage is lent, say
 * when); in a longer one the elements past the result stay as they are. On a refusal no lent byte
 * is changed. How large the largest results are, say the constants below.
 *
 * A JOB is handed as C, L, s and the limit (`chunks`, `span`, `delay`, `limit`), the layer sizes
 * (`sizes`, base first), the sizes that differ by chunk (`SZ`: `size_chunks`, `size_layers`,
 * `size_bytes`, three slices of one length, empty for film of equal chunks), and the forecast, one
 * number a slot. Chunk i is due in slot (i - 1) * L + s, the last of them, d(C), is the number of
 * slots. H is limit / L.
 * A FETCH LIST is four slices of one length, `row_slots`, `row_chunks`, `row_layers`, `row_bytes`,
 * in any order.
 * MARKS are one byte a chunk; bit n says that layer n is carried. COUNTS are four numbers, how many
 * chunks carry each layer.
 * Slots, chunks and files are counted as documents 01 and 02 of the planner count them: slots and
 * chunks from 1, layers from 0.
 */
#ifndef FILM_PLANNER_H
#define FILM_PLANNER_H

#include <stddef.h>
#include <stdint.h>

#if !defined(__x86_64__) || !defined(__LP64__) || !defined(__linux__)
#error "libfilm_planner is for x86-64 Linux alone"
#endif

/* A struct and a call have the name film_plan: C++ then wants the word struct, and g++ says so at
 * the call's declaration. Casts are C's. */
#if defined(__cplusplus) && defined(__GNUC__)
#pragma GCC diagnostic push
#pragma GCC diagnostic ignored "-Wshadow"
#pragma GCC diagnostic ignored "-Wold-style-cast"
#endif

#ifdef __cplusplus
extern "C" {
#endif

/* ---- the version of this header and of the archive that it belongs to: raised whenever the
 * header's code changes, or what a call answers. It is the shared object's number too. */

#define FILM_VERSION 1

/* An answer is looked at; a slice of a call is not null. */
#define FILM_ANSWER __attribute__((warn_unused_result)) uint64_t
#define FILM_CALL __attribute__((nonnull)) FILM_ANSWER

/* Answers the archive's version, for a program that loads the shared object by hand to hold against
 * FILM_VERSION. Never refuses. */
FILM_ANSWER film_version(void);

/* The same by a name that carries the version. Every file that includes this header names it, so a
 * program whose header is not the archive's does not link, or does not start where it is linked
 * with the shared object: "undefined reference to `film_archive_of_version_1'". */
FILM_ANSWER film_archive_of_version_1(void);

#if defined(__has_attribute)
#if __has_attribute(retain)
#define FILM_KEPT __attribute__((used, retain))
#endif
#endif
#ifndef FILM_KEPT
#define FILM_KEPT __attribute__((used))
#endif
#define FILM_ARCHIVE(version) film_archive_of_version_##version
#define FILM_ARCHIVE_OF(version) FILM_ARCHIVE(version)
static uint64_t (*const film_archive)(void) FILM_KEPT = FILM_ARCHIVE_OF(FILM_VERSION);
#undef FILM_ARCHIVE_OF
#undef FILM_ARCHIVE
#undef FILM_KEPT

/* ---- the largest results, in elements of their slices */

enum {
    FILM_LAYERS = 4,           /* layer sizes of a job */
    FILM_SLOTS = 3600,         /* slots of a forecast */
    FILM_MARKS = 500,          /* marks of a plan: one a chunk */
    FILM_ROWS = 5599,          /* rows that planning hands over, also afresh */
    FILM_PIECES = 2000,        /* pieces to ask the link for: four layers of 500 chunks */
    FILM_SZS = 1996,           /* SZs of a job: four layers of 499 chunks */
    FILM_PROGRAMME = 4,        /* C, L, s and the limit */
    FILM_LENGTHS = 2,          /* how many layers, how many SZs */
    FILM_COUNTS = 4,           /* counts of a plan */
    FILM_WALK = 3,             /* steps, ended, shortfall of a search */
    FILM_FILE = 65536,         /* bytes of any file that is read or written */
    FILM_FILE_ROWS = 5957,     /* rows of any plan file that is read: 11 bytes each */
    FILM_JOB_FILE = 46800,     /* bytes of a job file as written */
    FILM_PLAN_FILE = 64091,    /* bytes of the file of a plan of at most FILM_ROWS rows */
    FILM_REPORT = 7633,        /* bytes of a report */
    FILM_REASONS = 94000,      /* bytes of the reasons */
    FILM_TRACE = 322099200,    /* bytes of a link trace as written */
    FILM_SAMPLES = 10          /* cells of a meter */
};

/* ---- refusals: the number, its name (FILM_REFUSED_ENDS_EARLY and so on), and the sentence of
 * document 01 (1 to 13) or 02 (14 to 22) */

#define FILM_REFUSALS(X) \
    X(1, ENDS_EARLY, "A file ends before a mark, within a record or without `EN`.") \
    X(2, UNKNOWN_MARK, "Unknown mark for this kind of file.") \
    X(3, BYTES_AFTER, "Bytes after `EN`.") \
    X(4, PROGRAMMES, "A second `PG`, or none by `EN`.") \
    X(5, PROGRAMME_FIELD, "A programme field out of range, or d(C) above 3,600.") \
    X(6, LAYER_SIZE, "A layer size out of range, a fifth layer, or no layer by `EN`.") \
    X(7, FORECAST, "A run of 0 slots, runs beyond 3,600 slots, bytes out of range, or a slot total other than d(C).") \
    X(8, NOT_WHOLE, "`KP` records not for 1 to C in turn, before every `FT`, and complete by `EN`; in a direct call marks that aren't " \
                    "one byte a chunk or a row not handed whole.") \
    X(9, LONG_FILE, "A file above 65,536 bytes, read or to be written.") \
    X(10, SAMPLE, "A sample's slot or bytes out of range, handed or kept; a meter with more than ten samples or slots not rising.") \
    X(11, SHORT_BUFFER, "A lent buffer is shorter than the whole result, after all input refusals.") \
    X(12, NO_SAMPLES, "A forecast from a meter without samples.") \
    X(13, LATE_SAMPLE, "A sample whose slot is not above the last one's, after 10.") \
    X(14, TRACE_LINE, "A line that isn't 1 to 7 digits, lacks its line feed, or has a time below the line before.") \
    X(15, TRACE_SLOT, "A slot above 16,777,216 bytes, or a slot not a multiple of 1,500 in writing.") \
    X(16, NO_WAIT, "No s within the forecast works, a forecast too short for s = 1 included.") \
    X(17, SEQUENCE, "A record out of sequence or a run of the same bytes as the one before.") \
    X(18, SZ, "An `SZ` naming chunk 1, or a chunk or layer that isn't in the job, not rising, or of size out of range or equal to the " \
              "layer's own; in a direct call also an `SZ` not handed whole.") \
    X(19, NOT_PASSING, "Booking a list whose verdict isn't 0.") \
    X(20, RELEASE, "Releasing a row for a slot that isn't there or beyond 16,777,216 bytes in a slot.") \
    X(21, SLOT, "p not from 1 to d(C), or in planning a handed row not before p.") \
    X(22, FETCHED, "Handed rows that break rule 1, 3, 4, 5 or 6, with rule 2 only where a sum exceeds its size, or that begin a chunk " \
                   "in an earlier slot than a handed one that plays before it.")

enum {
#define FILM_NAMED(number, name, sentence) FILM_REFUSED_##name = number,
    FILM_REFUSALS(FILM_NAMED)
#undef FILM_NAMED
};

/* The refusal's number, or 0 for a result. */
static inline uint32_t film_refused(uint64_t answer)
{
    return answer >> 32 ? (uint32_t)answer : 0;
}

/* The sentence of a refusal, or of 0. */
static inline const char *film_sentence(uint32_t refusal)
{
    switch (refusal) {
    case 0: return "Not refused.";
#define FILM_SAID(number, name, sentence) case number: return sentence;
    FILM_REFUSALS(FILM_SAID)
#undef FILM_SAID
    default: return "No refusal has this number.";
    }
}

/* ---- job and plan files */

/* Reads a job file in one sequence: PG, all LY, all SZ, all BW, EN. Answers the number of slots of
 * the forecast. Lent: the programme (C, L, s, limit), lengths (how many layers, how many SZs), the
 * layer sizes, the SZs in three slices, the forecast. Refuses: 9; record by record 2 or 1 for the
 * mark, 1 for the body, 4 for a second PG, 17, then 5, 6, 7; at EN 3, 4, 6, 18, 7; then 11. */
FILM_CALL film_read_job(
    const uint8_t *file, size_t file_len,
    uint16_t *programme, size_t programme_len,
    uint64_t *lengths, size_t lengths_len,
    uint32_t *sizes, size_t sizes_len,
    uint16_t *size_chunks, size_t size_chunks_len,
    uint8_t *size_layers, size_t size_layers_len,
    uint32_t *size_bytes, size_t size_bytes_len,
    uint32_t *forecast, size_t forecast_len);

/* The same of a mixed file, as document 01 has it and as files kept for ever may be: PG anywhere,
 * LY and BW mixed, no SZ (2). A file in one sequence without SZ is one, too. Refuses as
 * film_read_job, without 17 and 18. */
FILM_CALL film_read_mixed_job(
    const uint8_t *file, size_t file_len,
    uint16_t *programme, size_t programme_len,
    uint64_t *lengths, size_t lengths_len,
    uint32_t *sizes, size_t sizes_len,
    uint32_t *forecast, size_t forecast_len);

/* Writes the job's file, the only one it has in one sequence. Answers its bytes, at most
 * FILM_JOB_FILE. Refuses: 5, 6, 18, 7, 11. */
FILM_CALL film_write_job(
    uint16_t chunks, uint16_t span, uint16_t delay, uint16_t limit,
    const uint32_t *sizes, size_t sizes_len,
    const uint16_t *size_chunks, size_t size_chunks_len,
    const uint8_t *size_layers, size_t size_layers_len,
    const uint32_t *size_bytes, size_t size_bytes_len,
    const uint32_t *forecast, size_t forecast_len,
    uint8_t *out, size_t out_len);

/* Reads a plan file for a job: KP for chunk 1 to C, then FT, EN. Answers the number of rows, at
 * most FILM_FILE_ROWS. Lent: the marks, the rows. Whether they are sensible is film_check's
 * business. Refuses: the job's 5, 6, 18, 7; 9; record by record 2, 1, 8; at EN 3, 8; 11. */
FILM_CALL film_read_plan(
    uint16_t chunks, uint16_t span, uint16_t delay, uint16_t limit,
    const uint32_t *sizes, size_t sizes_len,
    const uint16_t *size_chunks, size_t size_chunks_len,
    const uint8_t *size_layers, size_t size_layers_len,
    const uint32_t *size_bytes, size_t size_bytes_len,
    const uint32_t *forecast, size_t forecast_len,
    const uint8_t *file, size_t file_len,
    uint8_t *marks, size_t marks_len,
    uint16_t *row_slots, size_t row_slots_len,
    uint16_t *row_chunks, size_t row_chunks_len,
    uint8_t *row_layers, size_t row_layers_len,
    uint32_t *row_bytes, size_t row_bytes_len);

/* Writes a plan file, the rows as handed. Answers its bytes: 5 a chunk, 11 a row, 2. Refuses: 5, 6,
 * 18, 7, 8, 9, 11. */
FILM_CALL film_write_plan(
    uint16_t chunks, uint16_t span, uint16_t delay, uint16_t limit,
    const uint32_t *sizes, size_t sizes_len,
    const uint16_t *size_chunks, size_t size_chunks_len,
    const uint8_t *size_layers, size_t size_layers_len,
    const uint32_t *size_bytes, size_t size_bytes_len,
    const uint32_t *forecast, size_t forecast_len,
    const uint8_t *marks, size_t marks_len,
    const uint16_t *row_slots, size_t row_slots_len,
    const uint16_t *row_chunks, size_t row_chunks_len,
    const uint8_t *row_layers, size_t row_layers_len,
    const uint32_t *row_bytes, size_t row_bytes_len,
    uint8_t *out, size_t out_len);

/* ---- the checker */

/* Judges a fetch list with its marks. Answers the verdict: 0 if rules 1 to 7 all hold, else the
 * lowest broken rule.
 *   1  Slot 1 to d(C), chunk 1 to C, layer below the layer count, bytes at least 1.
 *   2  Each layer of each chunk sums to 0 or its full size.
 *   3  A carried layer has the layer below carried.
 *   4  A slot's rows sum to at most the forecast of the slot.
 *   5  No row is later than its chunk's due slot.
 *   6  At the end of each slot at most H chunks are held.
 *   7  The marks of the plan say the layers carried.
 * It wants exactly C marks, so of a longer slice hand C, and exactly the list's rows. Refuses: 5,
 * 6, 18, 7, 8. */
FILM_CALL film_check(
    uint16_t chunks, uint16_t span, uint16_t delay, uint16_t limit,
    const uint32_t *sizes, size_t sizes_len,
    const uint16_t *size_chunks, size_t size_chunks_len,
    const uint8_t *size_layers, size_t size_layers_len,
    const uint32_t *size_bytes, size_t size_bytes_len,
    const uint32_t *forecast, size_t forecast_len,
    const uint8_t *marks, size_t marks_len,
    const uint16_t *row_slots, size_t row_slots_len,
    const uint16_t *row_chunks, size_t row_chunks_len,
    const uint8_t *row_layers, size_t row_layers_len,
    const uint32_t *row_bytes, size_t row_bytes_len);

/* The second call, for lists made afresh at slot p (`from`): rule 2 allows a short sum whose rows
 * are all before p. The job's forecast is the joined one, as it was before p and as it was handed
 * from p on. Refuses: 5, 6, 18, 7, 8, 21. */
FILM_CALL film_check_from(
    uint16_t chunks, uint16_t span, uint16_t delay, uint16_t limit,
    const uint32_t *sizes, size_t sizes_len,
    const uint16_t *size_chunks, size_t size_chunks_len,
    const uint8_t *size_layers, size_t size_layers_len,
    const uint32_t *size_bytes, size_t size_bytes_len,
    const uint32_t *forecast, size_t forecast_len,
    uint16_t from,
    const uint8_t *marks, size_t marks_len,
    const uint16_t *row_slots, size_t row_slots_len,
    const uint16_t *row_chunks, size_t row_chunks_len,
    const uint8_t *row_layers, size_t row_layers_len,
    const uint32_t *row_bytes, size_t row_bytes_len);

/* ---- plans */

/* Plans a job: the layers that documents 01 and 02 decide to carry, and the plan's own list by
 * slot, chunk, layer. Answers the number of rows, at most FILM_ROWS; with the marks they pass
 * film_check, if it is handed so many rows as were answered and C marks; film_plan_of and
 * film_check_of see to both. Lent: the marks, the rows, the four counts. Refuses: 5, 6, 18, 7,
 * 11. */
FILM_CALL film_plan(
    uint16_t chunks, uint16_t span, uint16_t delay, uint16_t limit,
    const uint32_t *sizes, size_t sizes_len,
    const uint16_t *size_chunks, size_t size_chunks_len,
    const uint8_t *size_layers, size_t size_layers_len,
    const uint32_t *size_bytes, size_t size_bytes_len,
    const uint32_t *forecast, size_t forecast_len,
    uint8_t *marks, size_t marks_len,
    uint16_t *row_slots, size_t row_slots_len,
    uint16_t *row_chunks, size_t row_chunks_len,
    uint8_t *row_layers, size_t row_layers_len,
    uint32_t *row_bytes, size_t row_bytes_len,
    uint16_t *counts, size_t counts_len);

/* Compares two plans' counts entry by entry from the base: 0 if they are the same; at the first
 * that differs 1 if the first plan has fewer, 2 if it has more. Never refuses: a count that is not
 * handed is 0, as that of an absent layer, and none past the fourth is looked at. */
enum { FILM_SAME = 0, FILM_FEWER = 1, FILM_MORE = 2 };
FILM_CALL film_compare(
    const uint16_t *counts, size_t counts_len, const uint16_t *others, size_t others_len);

/* Plans afresh at slot p (`from`), during the act: the rows fetched before p, in any order, and the
 * forecast from p on, d(C) - p + 1 slots (`onward`); the job's own forecast says the slots before
 * p. Layers whole before p are carried, chunks due before p are settled by what they have, the
 * others as in document 01, bases too, over lists that begin with the rows fetched. Answers the
 * number of rows from p on, at most FILM_ROWS; with the rows fetched before them they pass
 * film_check_from. Lent: the marks, the rows from p on, the four counts. Refuses: 5, 6, 18, 7, 8,
 * 21, 7 (the forecast from p on), 22, 11. */
FILM_CALL film_replan(
    uint16_t chunks, uint16_t span, uint16_t delay, uint16_t limit,
    const uint32_t *sizes, size_t sizes_len,
    const uint16_t *size_chunks, size_t size_chunks_len,
    const uint8_t *size_layers, size_t size_layers_len,
    const uint32_t *size_bytes, size_t size_bytes_len,
    const uint32_t *forecast, size_t forecast_len,
    uint16_t from,
    const uint16_t *fetched_slots, size_t fetched_slots_len,
    const uint16_t *fetched_chunks, size_t fetched_chunks_len,
    const uint8_t *fetched_layers, size_t fetched_layers_len,
    const uint32_t *fetched_bytes, size_t fetched_bytes_len,
    const uint32_t *onward, size_t onward_len,
    uint8_t *marks, size_t marks_len,
    uint16_t *row_slots, size_t row_slots_len,
    uint16_t *row_chunks, size_t row_chunks_len,
    uint8_t *row_layers, size_t row_layers_len,
    uint32_t *row_bytes, size_t row_bytes_len,
    uint16_t *counts, size_t counts_len);

/* What to fetch next in slot p (`from`), during the act and whatever the link brings: from the
 * rows fetched before p, in any order, and a rate in bytes a slot, any number, the pieces to ask
 * the link for one after the other, as far as the slot goes. They are by layer from the base up,
 * and in a layer by chunk: the bytes not yet fetched of each chunk asked. docs/LIVE.md has the
 * rule that says which chunks are asked, and the loop around the call. The job's forecast before p
 * says what those slots could carry: write into it what each slot that is over has brought; from p
 * on it is not used. Answers the number of pieces, at most FILM_PIECES, 0 where nothing is to be
 * asked. Whatever part of them the link brings, in their order, the rows fetched and that part as
 * rows of slot p are not refused at p + 1, here or in film_replan, if the forecast of slot p is
 * then at least the bytes brought. Lent: the pieces. Refuses: 5, 6, 18, 7, 8, 21, 22, 11. */
FILM_CALL film_live(
    uint16_t chunks, uint16_t span, uint16_t delay, uint16_t limit,
    const uint32_t *sizes, size_t sizes_len,
    const uint16_t *size_chunks, size_t size_chunks_len,
    const uint8_t *size_layers, size_t size_layers_len,
    const uint32_t *size_bytes, size_t size_bytes_len,
    const uint32_t *forecast, size_t forecast_len,
    uint16_t from,
    const uint16_t *fetched_slots, size_t fetched_slots_len,
    const uint16_t *fetched_chunks, size_t fetched_chunks_len,
    const uint8_t *fetched_layers, size_t fetched_layers_len,
    const uint32_t *fetched_bytes, size_t fetched_bytes_len,
    uint32_t rate,
    uint16_t *piece_chunks, size_t piece_chunks_len,
    uint8_t *piece_layers, size_t piece_layers_len,
    uint32_t *piece_bytes, size_t piece_bytes_len);

/* Searches the best set of bases within a budget of steps, and plans over it: each chunk from the
 * last is tried kept and then skipped, each try is a step. Answers the number of rows, at most
 * FILM_ROWS; with the marks, whose bit 0 is the set, they pass film_check. Lent: the marks, the
 * rows, the four counts, and three numbers of the walk: the steps taken, 1 if it ended, else 0, and
 * the shortfall: how many bases more a passing list in playing order can carry at the most, 0 if
 * the walk ended. A step takes about 3 nanoseconds, the largest budget, 4,294,967,295 steps, about
 * 15 seconds, and nothing stops it on the way: on a desk 10,000,000 steps take a thirtieth of a
 * second. Refuses: 5, 6, 18, 7, 11. */
FILM_CALL film_search(
    uint16_t chunks, uint16_t span, uint16_t delay, uint16_t limit,
    const uint32_t *sizes, size_t sizes_len,
    const uint16_t *size_chunks, size_t size_chunks_len,
    const uint8_t *size_layers, size_t size_layers_len,
    const uint32_t *size_bytes, size_t size_bytes_len,
    const uint32_t *forecast, size_t forecast_len,
    uint32_t budget,
    uint8_t *marks, size_t marks_len,
    uint16_t *row_slots, size_t row_slots_len,
    uint16_t *row_chunks, size_t row_chunks_len,
    uint8_t *row_layers, size_t row_layers_len,
    uint32_t *row_bytes, size_t row_bytes_len,
    uint16_t *counts, size_t counts_len,
    uint32_t *walk, size_t walk_len);

/* The shortest wait: from a job without s and a forecast of up to 3,600 slots the smallest s for
 * which the plan skips no base. Answers s. Refuses: 5 (C, L and the limit alone), 6, 18, 7, 16. */
FILM_CALL film_wait(
    uint16_t chunks, uint16_t span, uint16_t limit,
    const uint32_t *sizes, size_t sizes_len,
    const uint16_t *size_chunks, size_t size_chunks_len,
    const uint8_t *size_layers, size_t size_layers_len,
    const uint32_t *size_bytes, size_t size_bytes_len,
    const uint32_t *forecast, size_t forecast_len);

/* ---- text */

/* The report of the job's plan, lines ended by a line feed:
 *   slots d(C) chunks C held H
 *   for each chunk: number, layers carried, bytes carried
 *   layers, and the counts of the job's layers
 *   bytes in rows, left unspent
 *   switch, the sum of differences in bytes between each carried chunk and the next carried one
 *   rate, that sum divided by C * L: whole quotient and remainder
 * Answers its bytes, at most FILM_REPORT. Refuses: 5, 6, 18, 7, 11. */
FILM_CALL film_report(
    uint16_t chunks, uint16_t span, uint16_t delay, uint16_t limit,
    const uint32_t *sizes, size_t sizes_len,
    const uint16_t *size_chunks, size_t size_chunks_len,
    const uint8_t *size_layers, size_t size_layers_len,
    const uint32_t *size_bytes, size_t size_bytes_len,
    const uint32_t *forecast, size_t forecast_len,
    uint8_t *out, size_t out_len);

/* The reason under each layer of the job that its plan doesn't carry, by chunk and then layer,
 * lines ended by a line feed:
 *   chunk 1 layer 0: slots 2 to 4 carry 1, need 2
 *   chunk 1 layer 1: layer 0 is missing
 * Answers its bytes, at most FILM_REASONS; 0 for a plan that lacks nothing. Refuses: 5, 6, 18, 7,
 * 11. */
FILM_CALL film_reasons(
    uint16_t chunks, uint16_t span, uint16_t delay, uint16_t limit,
    const uint32_t *sizes, size_t sizes_len,
    const uint16_t *size_chunks, size_t size_chunks_len,
    const uint8_t *size_layers, size_t size_layers_len,
    const uint32_t *size_bytes, size_t size_bytes_len,
    const uint32_t *forecast, size_t forecast_len,
    uint8_t *out, size_t out_len);

/* ---- whole files: what the programs do, for callers who have files */

/* The plan file of the job of a job file in one sequence. Answers its bytes, at most
 * FILM_PLAN_FILE. Refuses: the job file's number as film_read_job, then 11. */
FILM_CALL film_plan_file(const uint8_t *job, size_t job_len, uint8_t *out, size_t out_len);

/* The verdict on a plan file for the job of a job file. Answers as film_check: 0 for the file that
 * film_plan_file writes. Refuses: the job file's number, then the plan file's as film_read_plan. */
FILM_CALL film_verdict_files(
    const uint8_t *job, size_t job_len, const uint8_t *plan, size_t plan_len);

/* The report of the job's plan, as film_report. Answers its bytes, at most FILM_REPORT. Refuses as
 * film_plan_file. */
FILM_CALL film_report_file(const uint8_t *job, size_t job_len, uint8_t *out, size_t out_len);

/* The reasons under the layers that the job's plan lacks, as film_reasons. Answers their bytes, at
 * most FILM_REASONS. Refuses as film_plan_file. */
FILM_CALL film_reasons_file(const uint8_t *job, size_t job_len, uint8_t *out, size_t out_len);

/* The job of a mixed file as a file in one sequence. Answers its bytes, at most FILM_JOB_FILE.
 * Refuses: the file's number as film_read_mixed_job, then 11. */
FILM_CALL film_convert_file(const uint8_t *job, size_t job_len, uint8_t *out, size_t out_len);

/* ---- link traces */

/* Reads a link trace for so many slots, 1 to 3,600: a line is a time in milliseconds, 1 to 7 digits
 * and a line feed, and stands for 1,500 bytes that got through. Slot j gets 1,500 times the lines
 * from (j - 1) * 1,000 up to, but not including, j * 1,000; later lines are read and not counted.
 * Answers the number of slots. Lent: the forecast. The trace may have any length. Refuses: 7 (the
 * number of slots), 14, 15, 11. */
FILM_CALL film_read_trace(
    const uint8_t *trace, size_t trace_len, size_t slots, uint32_t *forecast, size_t forecast_len);

/* Writes a forecast of 1 to 3,600 slots, all multiples of 1,500, as the trace with each slot's
 * lines at its first millisecond. Answers its bytes, at most FILM_TRACE. Refuses: 7 (the number of
 * slots), 15, 11. */
FILM_CALL film_write_trace(
    const uint32_t *forecast, size_t forecast_len, uint8_t *out, size_t out_len);

/* ---- bookings: two films on one link */

/* Takes a passing list's bytes off the job's forecast, in its own storage. It wants exactly C marks
 * and the list's rows, as film_check. Answers 0. Refuses: 5, 6, 18, 7, 8, 19. */
FILM_CALL film_book(
    uint16_t chunks, uint16_t span, uint16_t delay, uint16_t limit,
    const uint32_t *sizes, size_t sizes_len,
    const uint16_t *size_chunks, size_t size_chunks_len,
    const uint8_t *size_layers, size_t size_layers_len,
    const uint32_t *size_bytes, size_t size_bytes_len,
    uint32_t *forecast, size_t forecast_len,
    const uint8_t *marks, size_t marks_len,
    const uint16_t *row_slots, size_t row_slots_len,
    const uint16_t *row_chunks, size_t row_chunks_len,
    const uint8_t *row_layers, size_t row_layers_len,
    const uint32_t *row_bytes, size_t row_bytes_len);

/* Adds a list's bytes back; after a booking of that list the forecast is what it was. It looks at
 * the rows' slots and bytes alone: a row of a chunk or layer that the job has not, or of 0 bytes,
 * is released like any other, and one for a slot that isn't there is 20 whatever its bytes. Answers
 * 0. Refuses: 5, 6, 18, 7, 8, 20. */
FILM_CALL film_release(
    uint16_t chunks, uint16_t span, uint16_t delay, uint16_t limit,
    const uint32_t *sizes, size_t sizes_len,
    const uint16_t *size_chunks, size_t size_chunks_len,
    const uint8_t *size_layers, size_t size_layers_len,
    const uint32_t *size_bytes, size_t size_bytes_len,
    uint32_t *forecast, size_t forecast_len,
    const uint16_t *row_slots, size_t row_slots_len,
    const uint16_t *row_chunks, size_t row_chunks_len,
    const uint8_t *row_layers, size_t row_layers_len,
    const uint32_t *row_bytes, size_t row_bytes_len);

/* ---- counts of marks */

/* How many marks have bit n, for marks of any length; 0 for n above 7. Answers 0. Lent: one number
 * for the count, since that of very many marks may be 2^32 or more. Refuses: 11. */
FILM_CALL film_count_marks(
    const uint8_t *marks, size_t marks_len, uint8_t n, uint64_t *count, size_t count_len);

/* Answers how many of a word's eight bytes have bit n, for n from 0 to 7, and 0 above. Never
 * refuses. */
FILM_ANSWER film_count_word(uint64_t word, uint8_t n);

/* ---- the link meter, in the caller's own storage: ten slots, ten bytes, and how many samples are
 * kept. Only the first `kept` cells mean anything, the newest sample last. A slice shorter than its
 * part of the meter holds no meter: 11, before what is kept is judged, whatever `kept` says. Cells
 * past the first `kept` are not looked at; film_meter_new clears all ten, film_meter_take writes the
 * next one. In longer slices the cells past the tenth, and past the first of `kept`, stay as they
 * are. */

/* Makes the storage a meter without samples. Answers 0. Refuses: 11. */
FILM_CALL film_meter_new(
    uint16_t *slots, size_t slots_len, uint32_t *bytes, size_t bytes_len,
    uint8_t *kept, size_t kept_len);

/* Takes a sample, a slot of 1 to 65,535 and its bytes, 0 to 16,777,216; the last ten are kept.
 * Answers 0. Refuses: 10 of the handed sample, 11, 10 of what is kept, 13. */
FILM_CALL film_meter_take(
    uint16_t *slots, size_t slots_len, uint32_t *bytes, size_t bytes_len,
    uint8_t *kept, size_t kept_len, uint16_t slot, uint32_t sample);

/* Answers the forecast of a slot's bytes: 0 if a sample is 0, else the whole part of the samples'
 * exact harmonic mean or one less, and never more. Refuses: 11, 10, 12. */
FILM_CALL film_meter_forecast(
    const uint16_t *slots, size_t slots_len, const uint32_t *bytes, size_t bytes_len,
    const uint8_t *kept, size_t kept_len);

/* ---- the inline layer: each call by its name with _of behind, over structs. It is not proved and
 * does little: it hands on the structs' numbers and slices, for a slice of length 0 an address that
 * is not null, and sets the number of rows or pieces to the answer. What a call answers and refuses
 * stands at the call; on a refusal no struct is changed. */

/* A job: zero it, set what it has. `sizes` and `forecast` are the caller's; even film needs nothing
 * of the SZs. */
struct film_job {
    uint16_t chunks, span, delay, limit; /* C 1 to 500, L 1 to 60, s 1 to 3,600, and the limit */
    const uint32_t *sizes;               /* 1 to 4, each 1 to 16,777,216, base first */
    size_t layers;                       /* how many they are */
    const uint16_t *size_chunks;         /* the SZs, rising by chunk and layer, none of chunk 1 */
    const uint8_t *size_layers;
    const uint32_t *size_bytes;
    size_t szs;                          /* how many they are; 0 for film of equal chunks */
    uint32_t *forecast;                  /* each 0 to 16,777,216; bookings write to them */
    size_t slots;                        /* how many they are: d(C) */
};

/* Room for the largest job that a file can hold: film_read_job_of makes a job over it. */
struct film_store {
    uint32_t sizes[FILM_LAYERS], size_bytes[FILM_SZS], forecast[FILM_SLOTS];
    uint16_t size_chunks[FILM_SZS];
    uint8_t size_layers[FILM_SZS];
};

/* A fetch list with room for that of any plan or plan file, and of an act that fetches what
 * film_live says in its order: 54 kB. A longer one goes by the calls themselves. Zero its `rows`
 * and film_push into it. */
struct film_list {
    uint16_t slots[FILM_FILE_ROWS], chunks[FILM_FILE_ROWS];
    uint8_t layers[FILM_FILE_ROWS];
    uint32_t bytes[FILM_FILE_ROWS];
    size_t rows; /* the first so many are the list's */
};

/* A plan, or any list to be judged with its marks. */
struct film_plan {
    uint8_t marks[FILM_MARKS];    /* of chunk 1 on */
    uint16_t counts[FILM_COUNTS]; /* written by planning and reading, compared by film_compare_of */
    struct film_list list;
};

/* How far a search came. */
struct film_walk {
    uint32_t steps, ended, shortfall;
};

/* What to ask the link for, one piece after the other. */
struct film_pieces {
    uint16_t chunks[FILM_PIECES];
    uint8_t layers[FILM_PIECES];
    uint32_t bytes[FILM_PIECES];
    size_t pieces; /* how many they are */
};

/* A meter: film_meter_new_of begins one. */
struct film_meter {
    uint16_t slots[FILM_SAMPLES];
    uint32_t bytes[FILM_SAMPLES];
    uint8_t kept[1];
};

/* What a slice of length 0 points to. Nothing is read or written there. */
static uint64_t film_none[1];

#define FILM_AT(type, at, length) ((length) ? (at) : (type *)film_none)
#define FILM_SLICE(type, at, length) FILM_AT(type, at, length), (length)
#define FILM_SIZES(j) \
    FILM_SLICE(const uint32_t, (j)->sizes, (j)->layers), \
    FILM_SLICE(const uint16_t, (j)->size_chunks, (j)->szs), \
    FILM_SLICE(const uint8_t, (j)->size_layers, (j)->szs), \
    FILM_SLICE(const uint32_t, (j)->size_bytes, (j)->szs), \
    FILM_SLICE(uint32_t, (j)->forecast, (j)->slots)
#define FILM_JOB(j) (j)->chunks, (j)->span, (j)->delay, (j)->limit, FILM_SIZES(j)
#define FILM_ROWS_OF(l) \
    (l)->slots, (l)->rows, (l)->chunks, (l)->rows, (l)->layers, (l)->rows, (l)->bytes, (l)->rows
#define FILM_ROOM(l) \
    (l)->slots, FILM_FILE_ROWS, (l)->chunks, FILM_FILE_ROWS, (l)->layers, FILM_FILE_ROWS, \
    (l)->bytes, FILM_FILE_ROWS
/* A job of more chunks is refused before its marks are looked at. */
#define FILM_MARKS_OF(j, p) \
    (p)->marks, ((j)->chunks < FILM_MARKS ? (j)->chunks : (size_t)FILM_MARKS)
#define FILM_METER(m) (m)->slots, FILM_SAMPLES, (m)->bytes, FILM_SAMPLES, (m)->kept, 1

/* A row at the end of a list; 0, and nothing done, if there is no room for it. */
__attribute__((warn_unused_result)) static inline int film_push(
    struct film_list *list, uint16_t slot, uint16_t chunk, uint8_t layer, uint32_t bytes)
{
    if (list->rows >= FILM_FILE_ROWS) return 0;
    list->slots[list->rows] = slot;
    list->chunks[list->rows] = chunk;
    list->layers[list->rows] = layer;
    list->bytes[list->rows++] = bytes;
    return 1;
}

/* The rows of another list at the end of a list, as the rows from p on behind those fetched; 0, and
 * nothing done, if there is no room for all. */
__attribute__((warn_unused_result)) static inline int film_append(
    struct film_list *list, const struct film_list *more)
{
    size_t k, rows = more->rows;
    if (rows > FILM_FILE_ROWS || list->rows > FILM_FILE_ROWS - rows) return 0;
    for (k = 0; k < rows; k++) {
        list->slots[list->rows] = more->slots[k];
        list->chunks[list->rows] = more->chunks[k];
        list->layers[list->rows] = more->layers[k];
        list->bytes[list->rows++] = more->bytes[k];
    }
    return 1;
}

/* A job over the store that it was read to. */
static inline void film_job_over(
    struct film_store *store, const uint16_t *programme, const uint64_t *lengths, uint64_t slots,
    struct film_job *job)
{
    job->chunks = programme[0];
    job->span = programme[1];
    job->delay = programme[2];
    job->limit = programme[3];
    job->sizes = store->sizes;
    job->layers = (size_t)lengths[0];
    job->size_chunks = store->size_chunks;
    job->size_layers = store->size_layers;
    job->size_bytes = store->size_bytes;
    job->szs = (size_t)lengths[1];
    job->forecast = store->forecast;
    job->slots = (size_t)slots;
}

/* The job of a file, over a store that has to stay as long as the job is used. */
static inline FILM_ANSWER film_read_job_of(
    const uint8_t *file, size_t file_len, struct film_store *store, struct film_job *job)
{
    uint16_t programme[FILM_PROGRAMME];
    uint64_t lengths[FILM_LENGTHS];
    uint64_t answer = film_read_job(FILM_SLICE(const uint8_t, file, file_len),
        programme, FILM_PROGRAMME, lengths, FILM_LENGTHS, store->sizes, FILM_LAYERS,
        store->size_chunks, FILM_SZS, store->size_layers, FILM_SZS, store->size_bytes, FILM_SZS,
        store->forecast, FILM_SLOTS);
    if (!film_refused(answer)) film_job_over(store, programme, lengths, answer, job);
    return answer;
}

/* The same of a mixed file, which has no SZs. */
static inline FILM_ANSWER film_read_mixed_job_of(
    const uint8_t *file, size_t file_len, struct film_store *store, struct film_job *job)
{
    uint16_t programme[FILM_PROGRAMME];
    uint64_t lengths[FILM_LENGTHS];
    uint64_t answer = film_read_mixed_job(FILM_SLICE(const uint8_t, file, file_len),
        programme, FILM_PROGRAMME, lengths, FILM_LENGTHS, store->sizes, FILM_LAYERS,
        store->forecast, FILM_SLOTS);
    if (!film_refused(answer)) film_job_over(store, programme, lengths, answer, job);
    return answer;
}

static inline FILM_ANSWER film_write_job_of(
    const struct film_job *job, uint8_t *out, size_t out_len)
{
    return film_write_job(FILM_JOB(job), FILM_SLICE(uint8_t, out, out_len));
}

/* The counts are those of the marks. */
static inline FILM_ANSWER film_read_plan_of(
    const struct film_job *job, const uint8_t *file, size_t file_len, struct film_plan *plan)
{
    uint64_t answer = film_read_plan(FILM_JOB(job), FILM_SLICE(const uint8_t, file, file_len),
        plan->marks, FILM_MARKS, FILM_ROOM(&plan->list));
    uint8_t n;
    if (film_refused(answer)) return answer;
    plan->list.rows = (size_t)answer;
    for (n = 0; n < FILM_COUNTS; n++) {
        uint64_t count = 0;
        if (film_count_marks(FILM_MARKS_OF(job, plan), n, &count, 1)) count = 0;
        plan->counts[n] = (uint16_t)count;
    }
    return answer;
}

static inline FILM_ANSWER film_write_plan_of(
    const struct film_job *job, const struct film_plan *plan, uint8_t *out, size_t out_len)
{
    return film_write_plan(FILM_JOB(job), FILM_MARKS_OF(job, plan), FILM_ROWS_OF(&plan->list),
        FILM_SLICE(uint8_t, out, out_len));
}

static inline FILM_ANSWER film_check_of(const struct film_job *job, const struct film_plan *plan)
{
    return film_check(FILM_JOB(job), FILM_MARKS_OF(job, plan), FILM_ROWS_OF(&plan->list));
}

static inline FILM_ANSWER film_check_from_of(
    const struct film_job *job, uint16_t from, const struct film_plan *plan)
{
    return film_check_from(
        FILM_JOB(job), from, FILM_MARKS_OF(job, plan), FILM_ROWS_OF(&plan->list));
}

static inline FILM_ANSWER film_plan_of(const struct film_job *job, struct film_plan *plan)
{
    uint64_t answer = film_plan(FILM_JOB(job), plan->marks, FILM_MARKS, FILM_ROOM(&plan->list),
        plan->counts, FILM_COUNTS);
    if (!film_refused(answer)) plan->list.rows = (size_t)answer;
    return answer;
}

static inline FILM_ANSWER film_compare_of(
    const struct film_plan *plan, const struct film_plan *other)
{
    return film_compare(plan->counts, FILM_COUNTS, other->counts, FILM_COUNTS);
}

/* The rows fetched must not be those of the plan itself: it is lent for writing. */
static inline FILM_ANSWER film_replan_of(
    const struct film_job *job, uint16_t from, const struct film_list *fetched,
    const uint32_t *onward, size_t onward_len, struct film_plan *plan)
{
    uint64_t answer = film_replan(FILM_JOB(job), from, FILM_ROWS_OF(fetched),
        FILM_SLICE(const uint32_t, onward, onward_len), plan->marks, FILM_MARKS,
        FILM_ROOM(&plan->list), plan->counts, FILM_COUNTS);
    if (!film_refused(answer)) plan->list.rows = (size_t)answer;
    return answer;
}

static inline FILM_ANSWER film_live_of(
    const struct film_job *job, uint16_t from, const struct film_list *fetched, uint32_t rate,
    struct film_pieces *pieces)
{
    uint64_t answer = film_live(FILM_JOB(job), from, FILM_ROWS_OF(fetched), rate,
        pieces->chunks, FILM_PIECES, pieces->layers, FILM_PIECES, pieces->bytes, FILM_PIECES);
    if (!film_refused(answer)) pieces->pieces = (size_t)answer;
    return answer;
}

static inline FILM_ANSWER film_search_of(
    const struct film_job *job, uint32_t budget, struct film_plan *plan, struct film_walk *walk)
{
    uint32_t said[FILM_WALK];
    uint64_t answer = film_search(FILM_JOB(job), budget, plan->marks, FILM_MARKS,
        FILM_ROOM(&plan->list), plan->counts, FILM_COUNTS, said, FILM_WALK);
    if (film_refused(answer)) return answer;
    plan->list.rows = (size_t)answer;
    walk->steps = said[0];
    walk->ended = said[1];
    walk->shortfall = said[2];
    return answer;
}

/* The job's delay is not looked at. */
static inline FILM_ANSWER film_wait_of(const struct film_job *job)
{
    return film_wait(job->chunks, job->span, job->limit, FILM_SIZES(job));
}

static inline FILM_ANSWER film_report_of(const struct film_job *job, uint8_t *out, size_t out_len)
{
    return film_report(FILM_JOB(job), FILM_SLICE(uint8_t, out, out_len));
}

static inline FILM_ANSWER film_reasons_of(const struct film_job *job, uint8_t *out, size_t out_len)
{
    return film_reasons(FILM_JOB(job), FILM_SLICE(uint8_t, out, out_len));
}

static inline FILM_ANSWER film_book_of(const struct film_job *job, const struct film_plan *plan)
{
    return film_book(FILM_JOB(job), FILM_MARKS_OF(job, plan), FILM_ROWS_OF(&plan->list));
}

static inline FILM_ANSWER film_release_of(const struct film_job *job, const struct film_list *list)
{
    return film_release(FILM_JOB(job), FILM_ROWS_OF(list));
}

/* The calls of few arguments, for slices that may be null where they have no element. */

static inline FILM_ANSWER film_plan_file_of(
    const uint8_t *job, size_t job_len, uint8_t *out, size_t out_len)
{
    return film_plan_file(
        FILM_SLICE(const uint8_t, job, job_len), FILM_SLICE(uint8_t, out, out_len));
}

static inline FILM_ANSWER film_verdict_files_of(
    const uint8_t *job, size_t job_len, const uint8_t *plan, size_t plan_len)
{
    return film_verdict_files(
        FILM_SLICE(const uint8_t, job, job_len), FILM_SLICE(const uint8_t, plan, plan_len));
}

static inline FILM_ANSWER film_report_file_of(
    const uint8_t *job, size_t job_len, uint8_t *out, size_t out_len)
{
    return film_report_file(
        FILM_SLICE(const uint8_t, job, job_len), FILM_SLICE(uint8_t, out, out_len));
}

static inline FILM_ANSWER film_reasons_file_of(
    const uint8_t *job, size_t job_len, uint8_t *out, size_t out_len)
{
    return film_reasons_file(
        FILM_SLICE(const uint8_t, job, job_len), FILM_SLICE(uint8_t, out, out_len));
}

static inline FILM_ANSWER film_convert_file_of(
    const uint8_t *job, size_t job_len, uint8_t *out, size_t out_len)
{
    return film_convert_file(
        FILM_SLICE(const uint8_t, job, job_len), FILM_SLICE(uint8_t, out, out_len));
}

static inline FILM_ANSWER film_read_trace_of(
    const uint8_t *trace, size_t trace_len, size_t slots, uint32_t *forecast, size_t forecast_len)
{
    return film_read_trace(FILM_SLICE(const uint8_t, trace, trace_len), slots,
        FILM_SLICE(uint32_t, forecast, forecast_len));
}

static inline FILM_ANSWER film_write_trace_of(
    const uint32_t *forecast, size_t forecast_len, uint8_t *out, size_t out_len)
{
    return film_write_trace(
        FILM_SLICE(const uint32_t, forecast, forecast_len), FILM_SLICE(uint8_t, out, out_len));
}

/* The count itself: there is room for it, so nothing is refused. */
static inline FILM_ANSWER film_count_marks_of(const uint8_t *marks, size_t marks_len, uint8_t n)
{
    uint64_t count = 0;
    if (film_count_marks(FILM_SLICE(const uint8_t, marks, marks_len), n, &count, 1)) return 0;
    return count;
}

/* Answers nothing: the storage is a meter's, so nothing is refused. */
static inline void film_meter_new_of(struct film_meter *meter)
{
    uint64_t answer = film_meter_new(FILM_METER(meter));
    (void)answer;
}

static inline FILM_ANSWER film_meter_take_of(
    struct film_meter *meter, uint16_t slot, uint32_t sample)
{
    return film_meter_take(FILM_METER(meter), slot, sample);
}

static inline FILM_ANSWER film_meter_forecast_of(const struct film_meter *meter)
{
    return film_meter_forecast(FILM_METER(meter));
}

#undef FILM_AT
#undef FILM_SLICE
#undef FILM_SIZES
#undef FILM_JOB
#undef FILM_ROWS_OF
#undef FILM_ROOM
#undef FILM_MARKS_OF
#undef FILM_METER

#ifdef __cplusplus
}
#endif

#if defined(__cplusplus) && defined(__GNUC__)
#pragma GCC diagnostic pop
#endif

#endif
