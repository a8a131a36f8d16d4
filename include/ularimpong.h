/* The proved library for C, on Linux on x86-64.
 *
 * A list is lent as a pointer and a count. The count is of elements behind the
 * pointer, not of bytes: six int64_t are 6. A pointer is aligned as its elements
 * are (8 bytes for int64_t), no two buffers of one call overlap, and none is NULL,
 * also where its count is 0. Nobody else writes to a buffer while the call runs.
 * Beyond that a call asks nothing: whatever stands in its lists, it ends, and
 * returns an answer or the number of a refusal. docs/SHEETS.md says what the
 * refusals of sheets mean, docs/PROBLEMS.md those of problems.
 *
 * A call keeps nothing between calls and uses no heap, but stack, which no proof
 * bounds. Measured with the older kit rattle-kit-5b, and then rounded up (built by
 * rattle-kit-13f, no sheet of crates/examples/data needed more):
 *
 *   ularimpong_solve, ularimpong_line_span    below 2 KiB; leave it 32 KiB
 *   ularimpong_translate                      68 KiB; leave it 128 KiB
 *   ularimpong_answer                         170 KiB; leave it 256 KiB
 *
 * Where a program is linked to bind names lazily, its first calls of memcpy and memset
 * take some 3 KiB more each time, the dynamic linker's own and none of the library's.
 *
 * Link target/staticlib/libbindings.a, which `tools/rust archive` writes. */
#ifndef ULARIMPONG_H
#define ULARIMPONG_H

#include <stddef.h>
#include <stdint.h>

#ifdef __cplusplus
extern "C" {
#endif

/* The greatest size of a range end or bound, 10^12. */
#define ULARIMPONG_M INT64_C(1000000000000)
/* The most quantities, primitives, clauses and literals of a problem. */
#define ULARIMPONG_MOST_QUANTITIES 128
#define ULARIMPONG_MOST_PRIMITIVES 256
#define ULARIMPONG_MOST_CLAUSES 256
#define ULARIMPONG_MOST_LITERALS 1024
/* The greatest budget. */
#define ULARIMPONG_MOST_SWEEPS INT64_C(1000000000)
/* The most bytes of a sheet. */
#define ULARIMPONG_MOST_BYTES 4096
/* The least sizes of the lists lent to ularimpong_translate. */
#define ULARIMPONG_RANGES 256
#define ULARIMPONG_PRIMITIVES 1024
#define ULARIMPONG_LENGTHS 256
#define ULARIMPONG_LITERALS 3072
#define ULARIMPONG_NAMES 1024
/* The bytes of a name in the list of names, padded with spaces. */
#define ULARIMPONG_NAME 8
/* The size of the buffer lent to ularimpong_answer. */
#define ULARIMPONG_OUTPUT 4096

/* The answers of a solve. */
#define ULARIMPONG_NONE 0
#define ULARIMPONG_FOUND 1
#define ULARIMPONG_STOPPED 2
#define ULARIMPONG_REFUSED 3

typedef struct {
    size_t answer;  /* one of the four above */
    size_t refusal; /* 1 to 8, or 0 */
    size_t sweeps;  /* the number of sweeps used */
} ularimpong_solved;

typedef struct {
    size_t refusal; /* 19 to 30, or 0: accepted */
    size_t line;    /* the line at fault, or 0 */
    size_t quantities, declared, primitives, clauses, literals; /* 0 at a refusal */
} ularimpong_translated;

typedef struct {
    size_t start, end; /* from start up to end, end not included */
} ularimpong_span;

/* Checks a problem and searches it with at most budget sweeps. Reads the ranges (two
 * numbers a quantity: low, high), the primitives (four each: kind, z, x, y), the lengths
 * of the clauses and their literals (three each: quantity, sense, bound). leading, 1 to n,
 * says how many of the n quantities lead. Each later one must have a range of one value,
 * or be the result of a primitive over lower-numbered ones: z of any kind, or x or y of a
 * sum; refusal 8, which goes before 7, says that leading is no such number. n is always
 * one; for a translated sheet its declared count is. The answer does not depend on it.
 * point must have a number for each of the n quantities, work 2n(D+1) numbers or more, n
 * counting all quantities and D being the sum over the leading ones of the least k with
 * 2^k at least the number of values. Found writes the point, stopped the floor, none
 * leaves point alone; each of them sets the first 2n(D+1) numbers of work to 0. A refusal
 * writes nothing. Returns the answer with the number of sweeps used. */
ularimpong_solved ularimpong_solve(
    const int64_t *ranges, size_t ranges_count,
    const int64_t *primitives, size_t primitives_count,
    const int64_t *lengths, size_t lengths_count,
    const int64_t *literals, size_t literals_count,
    int64_t leading,
    int64_t budget,
    int64_t *point, size_t point_count,
    int64_t *work, size_t work_count);

/* Translates a sheet into a problem. Reads the sheet's text. Acceptance fills the front
 * of each list, the names with ULARIMPONG_NAME bytes each, and leaves the rest; a refusal
 * writes nothing. Returns how many of each there are: 2 * quantities numbers of ranges,
 * 4 * primitives, clauses lengths, 3 * literals and 8 * declared bytes of names; or the
 * refusal and its line. */
ularimpong_translated ularimpong_translate(
    const uint8_t *sheet, size_t sheet_count,
    int64_t *ranges, size_t ranges_count,
    int64_t *primitives, size_t primitives_count,
    int64_t *lengths, size_t lengths_count,
    int64_t *literals, size_t literals_count,
    uint8_t *names, size_t names_count);

/* Finds a line of a text, the first line being 1. Reads the text, writes nothing. Returns
 * the stretch of the line without its LF; for line 0 or a missing line the empty stretch
 * at the text's end. */
ularimpong_span ularimpong_line_span(const uint8_t *text, size_t text_count, size_t line);

/* Answers a sheet as the desk program does, with a budget of 100,000 sweeps and a
 * workspace of 8,192 numbers. Reads the sheet's text. Writes the output to the front of
 * out and leaves the rest. Returns the output's length. */
size_t ularimpong_answer(
    const uint8_t *sheet, size_t sheet_count,
    uint8_t out[ULARIMPONG_OUTPUT]);

#ifdef __cplusplus
}
#endif

#endif
