/* Reads instances into arrays: arrays INSTANCE..
**
** It writes each instance again from its arrays, as `pb tidy` writes it but without its header and its comments, each row after its line
** and column. A rejected instance gives its position, and the number of the reason with its argument. It also calls with arrays that are
** too long or too short, with closed instances, and with each request for memory refused in turn: then the result is PB_FAILED, or as with
** enough memory. The status is 1 if something of this was wrong. */

#include <inttypes.h>
#include <stdbool.h>
#include <stdint.h>
#include <stdio.h>
#include <stdlib.h>
#include <string.h>

#define PB_NO_RANDOM
#include "pb.h"

/* The heap of the library, in place of the one in libpb.a. Request number `refused` is refused; 0 is no request. */
struct answer {
    bool ok;
    unsigned char *p;
};

static unsigned long requests, refused, live, wrong;
static unsigned char unused;

static struct answer answer_of(void *block)
{
    struct answer answer = {block != NULL, block != NULL ? block : &unused};
    return answer;
}

struct answer rattle_alloc(size_t size, size_t align)
{
    void *block = ++requests == refused ? NULL : malloc(size != 0 ? size : align);
    live += block != NULL;
    return answer_of(block);
}

struct answer rattle_realloc(unsigned char *p, size_t kept, size_t size, size_t align)
{
    (void)kept;
    return answer_of(++requests == refused ? NULL : realloc(p, size != 0 ? size : align));
}

void rattle_dealloc(unsigned char *p)
{
    live--;
    free(p);
}

static void tell(bool is_right, const char *what)
{
    if (!is_right) {
        wrong++;
        fprintf(stderr, "%s\n", what);
    }
}

/* The arrays of an instance. */
struct arrays {
    pb_sizes_t sizes;
    uint64_t *numbers, *lows, *ends, *degree_lows, *lines, *columns, *firsts, *pasts;
    int64_t *highs, *degree_highs;
    uint8_t *negated, *kinds;
};

/* Room for that many elements, and for none too. */
static void *room_for(size_t count, size_t size)
{
    void *room = malloc(count * size + 1);
    if (room == NULL)
        exit(2);
    return room;
}

static void copy(pb_instance_t *instance, struct arrays *a)
{
    size_t n, m;
    tell(pb_instance_sizes(instance, &a->sizes) == PB_OK, "sizes");
    n = a->sizes.terms;
    m = a->sizes.rows;
    a->numbers = room_for(n, 8), a->lows = room_for(n, 8), a->highs = room_for(n, 8), a->negated = room_for(n, 1);
    a->kinds = room_for(m, 1), a->ends = room_for(m, 8), a->degree_lows = room_for(m, 8), a->degree_highs = room_for(m, 8);
    a->lines = room_for(m, 8), a->columns = room_for(m, 8), a->firsts = room_for(m, 8), a->pasts = room_for(m, 8);
    tell(pb_instance_terms(instance, a->numbers, n, a->negated, n, a->lows, n, a->highs, n) == PB_OK, "terms");
    tell(pb_instance_rows(instance, a->kinds, m, a->ends, m, a->degree_lows, m, a->degree_highs, m) == PB_OK, "rows");
    tell(pb_instance_places(instance, a->lines, m, a->columns, m, a->firsts, m, a->pasts, m) == PB_OK, "places");
    /* A wrong length is told, also if another one is right. */
    tell(pb_instance_terms(instance, a->numbers, n + 1, a->negated, n, a->lows, n, a->highs, n) == PB_MISUSE, "long numbers");
    tell(pb_instance_terms(instance, a->numbers, n, a->negated, n, a->lows, n, a->highs, n + 1) == PB_MISUSE, "long coefficients");
    tell(pb_instance_rows(instance, a->kinds, m + 1, a->ends, m, a->degree_lows, m, a->degree_highs, m) == PB_MISUSE, "long kinds");
    tell(pb_instance_places(instance, a->lines, m, a->columns, m, a->firsts, m, a->pasts, m + 1) == PB_MISUSE, "long places");
    if (n > 0)
        tell(pb_instance_terms(instance, a->numbers, n, a->negated, n - 1, a->lows, n, a->highs, n) == PB_MISUSE, "short negations");
}

static void drop(struct arrays *a)
{
    free(a->numbers), free(a->lows), free(a->highs), free(a->negated), free(a->kinds), free(a->ends), free(a->degree_lows);
    free(a->degree_highs), free(a->lines), free(a->columns), free(a->firsts), free(a->pasts);
}

/* Prints a number of 128 bits in two words, with a `+` if `plus` is set and it is not negative. */
static void print_number(uint64_t low, int64_t high, bool plus)
{
    char digits[41], *first = digits + sizeof digits;
    bool negative = high < 0;
    uint64_t words[4], rest, upper = (uint64_t)high;
    if (negative) {
        upper = low == 0 ? 0 - upper : ~upper;
        low = 0 - low;
    }
    words[0] = upper >> 32, words[1] = upper & UINT32_MAX, words[2] = low >> 32, words[3] = low & UINT32_MAX;
    *--first = '\0';
    do {
        rest = 0;
        for (int k = 0; k < 4; k++) {
            rest = (rest << 32) + words[k];
            words[k] = rest / 10;
            rest %= 10;
        }
        *--first = (char)('0' + rest);
    } while ((words[0] | words[1] | words[2] | words[3]) != 0);
    printf("%s%s", negative ? "-" : plus ? "+" : "", first);
}

static void print(pb_instance_t *instance, const struct arrays *a)
{
    uint8_t name[4096];
    size_t len, term = 0;
    for (size_t row = 0; row < a->sizes.rows; row++) {
        printf("%" PRIu64 ":%" PRIu64 " ", a->lines[row], a->columns[row]);
        if (a->kinds[row] == PB_OBJECTIVE)
            printf("min: ");
        for (; term < a->ends[row]; term++) {
            print_number(a->lows[term], a->highs[term], true);
            tell(pb_instance_name(instance, (size_t)a->numbers[term], name, sizeof name, &len) == PB_OK && len <= sizeof name, "name");
            printf(" %s%.*s ", a->negated[term] ? "~" : "", (int)len, (const char *)name);
        }
        if (a->kinds[row] != PB_OBJECTIVE) {
            printf("%s ", a->kinds[row] == PB_EQUAL ? "=" : ">=");
            print_number(a->degree_lows[row], a->degree_highs[row], false);
            printf(" ");
        }
        printf(";\n");
        tell(a->firsts[row] < a->pasts[row], "offsets");
    }
    tell(term == a->sizes.terms, "terms of the rows");
    tell(pb_instance_name(instance, a->sizes.names, name, sizeof name, &len) == PB_MISUSE && len == 0, "no name");
}

/* The names in one text are those that come one by one. */
static void names(pb_instance_t *instance, const pb_sizes_t *sizes)
{
    size_t n = sizes->names, bytes = sizes->name_bytes, len, at = 0;
    uint8_t *text = room_for(bytes, 1), name[4096];
    uint64_t *starts = room_for(n, 8);
    memset(text, 1, bytes);
    tell(pb_instance_names(instance, text, bytes + 1, starts, n) == PB_MISUSE, "long names");
    tell(pb_instance_names(instance, text, bytes, starts, n + 1) == PB_MISUSE, "long starts");
    tell(bytes == 0 || text[0] == 1, "names of a wrong length");
    tell(pb_instance_names(instance, text, bytes, starts, n) == PB_OK, "names");
    for (size_t k = 0; k < n; k++) {
        pb_instance_name(instance, k, name, sizeof name, &len);
        tell(starts[k] == at && at + len <= bytes && memcmp(text + at, name, len) == 0, "a name among all");
        at += len;
    }
    tell(at == bytes, "the end of the names");
    free(text), free(starts);
}

static void closed(pb_instance_t *instance)
{
    pb_sizes_t sizes;
    uint64_t word;
    int64_t high;
    uint8_t byte;
    size_t len;
    tell(pb_instance_sizes(instance, &sizes) == PB_MISUSE, "closed sizes");
    tell(pb_instance_terms(instance, &word, 0, &byte, 0, &word, 0, &high, 0) == PB_MISUSE, "closed terms");
    tell(pb_instance_rows(instance, &byte, 0, &word, 0, &word, 0, &high, 0) == PB_MISUSE, "closed rows");
    tell(pb_instance_places(instance, &word, 0, &word, 0, &word, 0, &word, 0) == PB_MISUSE, "closed places");
    tell(pb_instance_name(instance, 0, &byte, 1, &len) == PB_MISUSE && len == 0, "closed name");
    tell(pb_instance_names(instance, &byte, 0, &word, 0) == PB_MISUSE, "closed names");
    pb_instance_close(instance);
    tell(live == 0, "blocks that are left");
}

static void run(const uint8_t *text, size_t text_len)
{
    static const pb_options_t options = PB_OPTIONS_FIXED, bad = {0, 0, 0, 128};
    pb_instance_t instance = PB_INSTANCE_CLOSED;
    pb_report_t report;
    struct arrays arrays;
    unsigned long all;
    uint8_t wanted, status;
    closed(&instance);
    tell(pb_instance_read(text, text_len, &bad, &instance, &report) == PB_MISUSE && report.reason == PB_MISUSED, "bad options");
    requests = 0;
    status = pb_instance_read(text, text_len, &options, &instance, &report);
    all = requests;
    if (status == PB_OK) {
        tell(report.reason == 0, "no reason");
        copy(&instance, &arrays);
        print(&instance, &arrays);
        names(&instance, &arrays.sizes);
        drop(&arrays);
        tell(pb_instance_read(text, text_len, &options, &instance, &report) == PB_OK, "read again");
    } else {
        tell(report.input == PB_IN_INSTANCE, "input");
        printf("line %" PRIu64 " column %" PRIu64 ": reason %" PRIu32 " %" PRIu64 "\n", report.line, report.column, report.reason, report.number);
    }
    wanted = status;
    pb_instance_close(&instance);
    closed(&instance);
    for (unsigned long number = 1; number <= all; number++) {
        requests = 0;
        refused = number;
        status = pb_instance_read(text, text_len, &options, &instance, &report);
        tell(status == wanted || (status == PB_FAILED && report.reason == PB_MEMORY), "a request that is refused");
        refused = 0;
        pb_instance_close(&instance);
        closed(&instance);
    }
}

int main(int count, char **words)
{
    for (int k = 1; k < count; k++) {
        uint8_t *text = room_for(1 << 20, 1);
        FILE *file = fopen(words[k], "rb");
        if (file == NULL)
            return 2;
        run(text, fread(text, 1, 1 << 20, file));
        fclose(file);
        free(text);
    }
    return wrong != 0;
}
