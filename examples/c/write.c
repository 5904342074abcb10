/* Writes an instance again from its arrays, statement by statement: write INSTANCE. Comments are left out. */

#include <pb.h>

#include <stdio.h>
#include <stdlib.h>

/* The terms, the rows and the names of an instance, and the tokens of one row. */
struct arrays {
    pb_sizes_t sizes;
    uint64_t *numbers, *lows, *ends, *degree_lows, *starts, *token_names, *token_lows;
    int64_t *highs, *degree_highs, *token_highs;
    uint8_t *negated, *kinds, *bytes, *codes;
};

/* An array with one element more than that, so that it is not null. */
static void *array_of(size_t count, size_t size)
{
    void *array = calloc(count + 1, size);
    if (array == NULL)
        exit(PB_FAILED);
    return array;
}

static void copy(pb_instance_t *instance, struct arrays *a)
{
    size_t rows, terms, names, bytes;
    pb_instance_sizes(instance, &a->sizes);
    rows = a->sizes.rows, terms = a->sizes.terms, names = a->sizes.names, bytes = a->sizes.name_bytes;
    a->numbers = array_of(terms, 8), a->lows = array_of(terms, 8), a->highs = array_of(terms, 8), a->negated = array_of(terms, 1);
    a->kinds = array_of(rows, 1), a->ends = array_of(rows, 8), a->degree_lows = array_of(rows, 8), a->degree_highs = array_of(rows, 8);
    a->bytes = array_of(bytes, 1), a->starts = array_of(names, 8);
    a->codes = array_of(terms + 1, 1), a->token_names = array_of(terms + 1, 8);
    a->token_lows = array_of(terms + 1, 8), a->token_highs = array_of(terms + 1, 8);
    pb_instance_terms(instance, a->numbers, terms, a->negated, terms, a->lows, terms, a->highs, terms);
    pb_instance_rows(instance, a->kinds, rows, a->ends, rows, a->degree_lows, rows, a->degree_highs, rows);
    pb_instance_names(instance, a->bytes, bytes, a->starts, names);
}

static void drop(struct arrays *a)
{
    void *all[] = {a->numbers, a->lows, a->highs, a->negated, a->kinds, a->ends, a->degree_lows, a->degree_highs, a->bytes, a->starts, a->codes,
        a->token_names, a->token_lows, a->token_highs};
    size_t k;
    for (k = 0; k < sizeof all / sizeof *all; k++)
        free(all[k]);
}

/* Prints the line of the first tokens. If the room is too small, it is made larger. */
static uint8_t print(const struct arrays *a, uint32_t kind, size_t count)
{
    static const pb_options_t options = PB_OPTIONS_FIXED;
    static uint8_t *line;
    static size_t room;
    for (;;) {
        size_t line_len, wrong;
        uint8_t status;
        if (line == NULL)
            line = array_of(room, 1);
        status = pb_write_statement(kind, a->codes, count, a->token_names, count, a->token_lows, count, a->token_highs, count,
            (const uint8_t *)"", 0, a->bytes, a->sizes.name_bytes, a->starts, a->sizes.names, &options, &wrong, line, room, &line_len);
        if (status == PB_REFUSED)
            fprintf(stderr, "token %lu is wrong\n", (unsigned long)wrong);
        if (status != PB_OK)
            return status;
        if (line_len <= room) {
            fwrite(line, 1, line_len, stdout);
            putchar('\n');
            return PB_OK;
        }
        free(line);
        line = NULL;
        room = line_len;
    }
}

static void put(struct arrays *a, size_t at, uint8_t code, uint64_t name, uint64_t low, int64_t high)
{
    a->codes[at] = code, a->token_names[at] = name, a->token_lows[at] = low, a->token_highs[at] = high;
}

/* The header, and then a line for each row: its terms, and for a constraint the relation with the degree. */
static uint8_t write_all(struct arrays *a)
{
    size_t has_objective = a->sizes.rows > 0 && a->kinds[0] == PB_OBJECTIVE, term = 0, k;
    uint8_t status;
    put(a, 0, PB_TOKEN_COUNT, 0, a->sizes.names, 0);
    put(a, 1, PB_TOKEN_COUNT, 0, a->sizes.rows - has_objective, 0);
    status = print(a, PB_EVENT_HEADER, 2);
    for (k = 0; k < a->sizes.rows && status == PB_OK; k++) {
        size_t count = 0;
        for (; term < a->ends[k]; term++)
            put(a, count++, PB_TOKEN_TERM + a->negated[term], a->numbers[term], a->lows[term], a->highs[term]);
        if (a->kinds[k] == PB_OBJECTIVE) {
            status = print(a, PB_EVENT_OBJECTIVE, count);
        } else {
            put(a, count++, a->kinds[k] == PB_EQUAL ? PB_TOKEN_EQUAL : PB_TOKEN_AT_LEAST, 0, a->degree_lows[k], a->degree_highs[k]);
            status = print(a, PB_EVENT_CONSTRAINT, count);
        }
    }
    return status;
}

/* All bytes of a file, and their number in `len`. */
static uint8_t *bytes_of(FILE *file, size_t *len)
{
    size_t room = 4096;
    uint8_t *bytes = array_of(room, 1);
    *len = 0;
    while ((*len += fread(bytes + *len, 1, room - *len, file)) == room) {
        bytes = realloc(bytes, room *= 2);
        if (bytes == NULL)
            exit(PB_FAILED);
    }
    return bytes;
}

int main(int count, char **words)
{
    pb_instance_t instance = PB_INSTANCE_CLOSED;
    FILE *file = count == 2 ? fopen(words[1], "rb") : NULL;
    struct arrays arrays;
    pb_options_t options;
    pb_report_t report;
    uint8_t *text, status;
    size_t text_len;

    if (file == NULL) {
        fprintf(stderr, "usage: write INSTANCE\n");
        return PB_MISUSE;
    }
    text = bytes_of(file, &text_len);
    fclose(file);
    pb_options(&options);
    status = pb_instance_read(text, text_len, &options, &instance, &report);
    if (status == PB_OK) {
        copy(&instance, &arrays);
        status = write_all(&arrays);
        drop(&arrays);
    }
    pb_instance_close(&instance);
    free(text);
    return status;
}
