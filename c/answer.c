/* Answers a sheet with the proved library: an example of each of its calls. The usage
 * text below says what it takes; the line at fault of a refused sheet goes to standard
 * error. */
#include <errno.h>
#include <stdbool.h>
#include <stdio.h>
#include <stdlib.h>
#include <string.h>

#include "ularimpong.h"

/* One byte more than a sheet may have is enough to see that it is too long. */
static uint8_t sheet[ULARIMPONG_MOST_BYTES + 1];
static size_t sheet_count;

static int64_t ranges[ULARIMPONG_RANGES];
static int64_t primitives[ULARIMPONG_PRIMITIVES];
static int64_t lengths[ULARIMPONG_LENGTHS];
static int64_t literals[ULARIMPONG_LITERALS];
static uint8_t names[ULARIMPONG_NAMES];
static int64_t point[ULARIMPONG_MOST_QUANTITIES];

static const char usage[] =
    "usage: answer [-b BUDGET] [FILE]\n"
    "\n"
    "Answers the sheet in FILE, or on standard input, as the desk program does.\n"
    "\n"
    "  -b BUDGET  search with at most BUDGET sweeps, a whole number, and as much room as\n"
    "             the sheet needs\n"
    "  --help     print this\n"
    "\n"
    "Status: 0 answered or refused, 1 a failed read or write, 2 bad usage.\n";

/* Says why the last call on what is named here failed. */
static int failed(const char *name)
{
    fprintf(stderr, "answer: %s: %s\n", name, strerror(errno));
    return 1;
}

/* A folder can be opened, so only the read tells that it is no sheet. */
static int read_sheet(const char *path)
{
    const char *name = path ? path : "standard input";
    FILE *file = path ? fopen(path, "rb") : stdin;
    if (!file)
        return failed(name);
    sheet_count = fread(sheet, 1, sizeof sheet, file);
    int status = ferror(file) ? failed(name) : 0;
    if (path)
        fclose(file);
    return status;
}

/* Output waits in a buffer, so only this tells that it was written. */
static int written(void)
{
    return fflush(stdout) != 0 || ferror(stdout) ? failed("standard output") : 0;
}

static ularimpong_translated translate(void)
{
    return ularimpong_translate(
        sheet, sheet_count,
        ranges, ULARIMPONG_RANGES,
        primitives, ULARIMPONG_PRIMITIVES,
        lengths, ULARIMPONG_LENGTHS,
        literals, ULARIMPONG_LITERALS,
        names, ULARIMPONG_NAMES);
}

/* Shows the line at fault, if there is one. */
static void show_line(size_t line)
{
    if (line == 0)
        return;
    ularimpong_span span = ularimpong_line_span(sheet, sheet_count, line);
    fprintf(stderr, "line %zu: %.*s\n", line, (int)(span.end - span.start),
            (const char *)sheet + span.start);
}

static int as_the_desk(void)
{
    static uint8_t output[ULARIMPONG_OUTPUT];
    size_t length = ularimpong_answer(sheet, sheet_count, output);
    fwrite(output, 1, length, stdout);
    int status = written();
    show_line(translate().line);
    return status;
}

/* The workspace needed: 2n(D+1) numbers, D being the halvings of the leading ranges. */
static size_t room(size_t n, size_t leading)
{
    size_t depth = 0;
    for (size_t q = 0; q < leading; q++)
        for (int64_t above = ranges[2 * q + 1] - ranges[2 * q]; above > 0; above /= 2)
            depth++;
    return 2 * n * (depth + 1);
}

static void print_values(size_t declared)
{
    for (size_t q = 0; q < declared; q++) {
        const char *name = (const char *)names + ULARIMPONG_NAME * q;
        const char *space = memchr(name, ' ', ULARIMPONG_NAME);
        int length = space ? (int)(space - name) : ULARIMPONG_NAME;
        printf("%.*s %lld\n", length, name, (long long)point[q]);
    }
}

static int with_budget(int64_t budget)
{
    ularimpong_translated made = translate();
    if (made.refusal != 0) {
        printf("REFUSED %zu %zu\n", made.refusal, made.line);
        int status = written();
        show_line(made.line);
        return status;
    }
    size_t need = room(made.quantities, made.declared);
    int64_t *work = calloc(need, sizeof *work);
    if (!work)
        return failed("workspace");
    ularimpong_solved solved = ularimpong_solve(
        ranges, 2 * made.quantities,
        primitives, 4 * made.primitives,
        lengths, made.clauses,
        literals, 3 * made.literals,
        (int64_t)made.declared,
        budget,
        point, made.quantities,
        work, need);
    free(work);
    static const char *const words[] = {"NONE", "FOUND", "STOP"};
    if (solved.answer == ULARIMPONG_REFUSED) {
        printf("REFUSED %zu 0\n", solved.refusal);
        return written();
    }
    printf("%s %zu\n", words[solved.answer], solved.sweeps);
    if (solved.answer != ULARIMPONG_NONE)
        print_values(made.declared);
    return written();
}

/* A whole number and nothing else. Which budgets there are is the library's to say. */
static bool read_budget(const char *text, int64_t *budget)
{
    char *end;
    errno = 0;
    long long number = strtoll(text, &end, 10);
    *budget = number;
    return errno == 0 && end != text && *end == '\0' && strchr("+-0123456789", *text);
}

static int bad_usage(void)
{
    fputs(usage, stderr);
    return 2;
}

int main(int count, char **arguments)
{
    if (count == 2 && strcmp(arguments[1], "--help") == 0) {
        fputs(usage, stdout);
        return written();
    }
    bool has_budget = count > 1 && strcmp(arguments[1], "-b") == 0;
    int64_t budget = 0;
    if (has_budget && (count < 3 || !read_budget(arguments[2], &budget)))
        return bad_usage();
    int rest = has_budget ? 3 : 1;
    const char *path = count > rest ? arguments[rest] : NULL;
    if (count > rest + 1 || (path && path[0] == '-'))
        return bad_usage();
    int status = read_sheet(path);
    if (status != 0)
        return status;
    return has_budget ? with_budget(budget) : as_the_desk();
}
