/* Reads texts in pieces: readers [--once] TEXT..
**
** A text is a proof if its first byte is `p`, and else an instance. Its statements are written, each as its line, its column, its kind, its
** tokens and its free text, and compared for each cut in two, and for pieces of 1, 2, 3 and 37 bytes. It refuses each request for memory in
** turn: then the result is PB_FAILED or as with enough memory, and nothing that was allocated is left. It makes calls with closed readers, calls
** with arrays of wrong lengths, and calls after a fault. Eight threads do all of it at the same time, each with readers of its own, or with
** --once one does. It prints how many runs there were. The status is 1 if one was wrong. */

#include <inttypes.h>
#include <pthread.h>
#include <stdbool.h>
#include <stdint.h>
#include <stdio.h>
#include <stdlib.h>
#include <string.h>

#define PB_NO_RANDOM
#include "pb.h"

#define THREADS 8

/* The heap of the library, in place of the one in libpb.a. Request number `refused` of a thread is refused; 0 is no request. `live` counts
** the blocks that were not freed. */
struct answer {
    bool ok;
    unsigned char *p;
};

static _Thread_local unsigned long requests, refused, live, runs, wrong;
static unsigned char unused;

static struct answer answer_of(void *block)
{
    struct answer answer = {block != NULL, block != NULL ? block : &unused};
    return answer;
}

struct answer rattle_alloc(size_t size, size_t align)
{
    void *block = ++requests == refused ? NULL : malloc(size != 0 ? size : align);
    live += block != NULL;
    return answer_of(block);
}

struct answer rattle_realloc(unsigned char *p, size_t kept, size_t size, size_t align)
{
    (void)kept;
    return answer_of(++requests == refused ? NULL : realloc(p, size != 0 ? size : align));
}

void rattle_dealloc(unsigned char *p)
{
    live--;
    free(p);
}

static void tell(bool is_right, const char *what, size_t number)
{
    runs++;
    if (!is_right) {
        wrong++;
        fprintf(stderr, "%s %zu\n", what, number);
    }
}

/* What the calls returned for a text: the last status and report, and a sum over all that the statements have. */
struct result {
    pb_report_t report;
    uint64_t statements, sum;
    uint8_t status;
};

static void add(struct result *result, uint64_t number)
{
    result->sum = (result->sum ^ number) * UINT64_C(1099511628211);
}

static void add_bytes(struct result *result, const uint8_t *bytes, size_t len)
{
    add(result, len);
    for (size_t k = 0; k < len; k++)
        add(result, bytes[k]);
}

/* A block of just this size that is not null. */
static void *block_of(size_t count, size_t size)
{
    void *block = malloc(count != 0 ? count * size : 1);
    if (block == NULL)
        exit(2);
    return block;
}

/* Adds a name, through a block of just its length. */
static void add_name(struct result *result, pb_reader_t *reader, size_t number)
{
    uint8_t none, *name;
    size_t len, again;
    tell(pb_reader_name(reader, number, &none, 0, &len) == PB_OK, "the length of the name", number);
    name = block_of(len, 1);
    tell(pb_reader_name(reader, number, name, len, &again) == PB_OK && again == len, "the name", number);
    add_bytes(result, name, len);
    free(name);
}

/* Adds all that a statement has. Arrays of another length are not written. */
static void add_event(struct result *result, pb_reader_t *reader, const pb_event_t *event)
{
    size_t n = event->tokens, len;
    uint8_t *codes = block_of(n + 1, 1), *bytes = block_of(event->bytes, 1);
    uint64_t *names = block_of(n + 1, 8), *lows = block_of(n + 1, 8);
    int64_t *highs = block_of(n + 1, 8);
    add(result, event->line), add(result, event->column), add(result, event->offset), add(result, event->past), add(result, event->kind);
    codes[0] = 99;
    tell(pb_reader_tokens(reader, codes, n + 1, names, n, lows, n, highs, n) == PB_MISUSE && codes[0] == 99, "long codes", n);
    tell(pb_reader_tokens(reader, codes, n, names, n, lows, n, highs, n + 1) == PB_MISUSE && codes[0] == 99, "long numbers", n);
    tell(pb_reader_tokens(reader, codes, n, names, n, lows, n, highs, n) == PB_OK, "tokens", n);
    for (size_t k = 0; k < n; k++) {
        bool is_named = (codes[k] >= PB_TOKEN_TERM && codes[k] <= PB_TOKEN_NEGATED_LITERAL) || codes[k] == PB_TOKEN_WEAKEN;
        add(result, codes[k]), add(result, lows[k]), add(result, (uint64_t)highs[k]);
        if (is_named)
            add_name(result, reader, (size_t)names[k]);
        else
            tell(names[k] == 0, "a token without a name", k);
    }
    tell(pb_reader_bytes(reader, bytes, event->bytes, &len) == PB_OK && len == event->bytes, "the free text", event->bytes);
    add_bytes(result, bytes, len);
    result->statements++;
    free(codes), free(names), free(lows), free(highs), free(bytes);
}

static bool same_report(const pb_report_t *one, const pb_report_t *other)
{
    return one->line == other->line && one->column == other->column && one->offset == other->offset && one->number == other->number
        && one->id == other->id && one->reason == other->reason && one->input == other->input;
}

static bool is_same(const struct result *one, const struct result *other)
{
    return one->status == other->status && one->statements == other->statements && one->sum == other->sum
        && (one->status == PB_OK || same_report(&one->report, &other->report));
}

/* After a fault each call returns it again. */
static void again(pb_reader_t *reader, const struct result *result)
{
    pb_report_t report;
    pb_event_t event;
    size_t used = 1;
    tell(pb_reader_feed(reader, (const uint8_t *)"x", 1, &used, &event, &report) == result->status && used == 0
        && event.kind == PB_EVENT_NONE && same_report(&report, &result->report), "a feed after the fault at", result->report.offset);
    tell(pb_reader_finish(reader, &report) == result->status && same_report(&report, &result->report), "a finish after the fault at",
        result->report.offset);
}

/* Reads a text: `first` bytes, and then pieces of `size` bytes. */
static struct result fed(const uint8_t *text, size_t len, size_t first, size_t size, unsigned long number)
{
    static const pb_options_t options = PB_OPTIONS_FIXED;
    pb_reader_t reader = PB_READER_CLOSED;
    pb_event_t event;
    struct result result;
    size_t from = 0, used;
    memset(&result, 0, sizeof result);
    requests = 0;
    refused = number;
    result.status = pb_reader_open(len > 0 && text[0] == 'p' ? PB_READS_PROOF : PB_READS_INSTANCE, &options, &reader, &result.report);
    while (result.status == PB_OK && from < len) {
        size_t piece_len = from == 0 && first != 0 ? first : size;
        const uint8_t *piece = text + from;
        if (piece_len > len - from)
            piece_len = len - from;
        from += piece_len;
        do {
            result.status = pb_reader_feed(&reader, piece, piece_len, &used, &event, &result.report);
            if (event.kind != PB_EVENT_NONE) {
                add_event(&result, &reader, &event);
                piece += used;
                piece_len -= used;
            }
        } while (event.kind != PB_EVENT_NONE && result.status == PB_OK);
    }
    if (result.status == PB_OK)
        result.status = pb_reader_finish(&reader, &result.report);
    refused = 0;
    if (reader.inner != NULL && result.status != PB_OK)
        again(&reader, &result);
    pb_reader_close(&reader);
    tell(reader.inner == NULL && live == 0, "blocks that are left:", live);
    return result;
}

/* Calls with a closed reader, and with options and formats that are not allowed. */
static void closed(void)
{
    static const pb_options_t options = {0}, bad = {0, 0, 0, 30};
    pb_reader_t reader = PB_READER_CLOSED;
    pb_report_t report;
    pb_event_t event;
    uint64_t word;
    int64_t high;
    uint8_t byte;
    size_t used, len;
    for (size_t number = 0; number < 2; number++) {
        tell(pb_reader_feed(&reader, &unused, 1, &used, &event, &report) == PB_MISUSE && report.reason == PB_MISUSED && used == 0
            && event.kind == PB_EVENT_NONE, "a closed feed", number);
        tell(pb_reader_finish(&reader, &report) == PB_MISUSE && report.reason == PB_MISUSED, "a closed finish", number);
        tell(pb_reader_tokens(&reader, &byte, 0, &word, 0, &word, 0, &high, 0) == PB_MISUSE, "closed tokens", number);
        tell(pb_reader_bytes(&reader, &byte, 1, &len) == PB_MISUSE && len == 0, "closed bytes", number);
        tell(pb_reader_name(&reader, 0, &byte, 1, &len) == PB_MISUSE && len == 0, "a closed name", number);
        tell(pb_reader_open(PB_READS_PROOF, &bad, &reader, &report) == PB_MISUSE && report.reason == PB_MISUSED && reader.inner == NULL,
            "bad options", number);
        tell(pb_reader_open(9, &options, &reader, &report) == PB_MISUSE && report.reason == PB_MISUSED && reader.inner == NULL, "a bad format",
            number);
        /* Opening again frees what was open. A new reader has no event and no names. */
        pb_reader_open(PB_READS_PROOF, &options, &reader, &report);
        pb_reader_open(PB_READS_INSTANCE, &options, &reader, &report);
        tell(pb_reader_tokens(&reader, &byte, 0, &word, 0, &word, 0, &high, 0) == PB_OK, "tokens of no event", number);
        tell(pb_reader_name(&reader, 0, &byte, 1, &len) == PB_MISUSE && len == 0, "no name", number);
        pb_reader_close(&reader);
        pb_reader_close(&reader);
        tell(live == 0, "blocks of a closed reader that are left:", live);
    }
}

/* The texts, which the threads share. */
static struct {
    uint8_t *bytes;
    size_t len;
} texts[64];

static size_t texts_len;

static void *run(void *total)
{
    static const size_t sizes[] = {1, 2, 3, 37};
    for (size_t at = 0; at < texts_len; at++) {
        const uint8_t *text = texts[at].bytes;
        size_t len = texts[at].len;
        struct result wanted = fed(text, len, 0, len + 1, 0);
        unsigned long all;
        for (size_t k = 0; k < sizeof sizes / sizeof *sizes; k++) {
            struct result found = fed(text, len, 0, sizes[k], 0);
            tell(is_same(&found, &wanted), "pieces of", sizes[k]);
        }
        for (size_t cut = 1; cut < len; cut++) {
            struct result found = fed(text, len, cut, len, 0);
            tell(is_same(&found, &wanted), "a cut at", cut);
        }
        fed(text, len, 0, 7, 0);
        all = requests;
        for (unsigned long number = 1; number <= all; number++) {
            struct result found = fed(text, len, 0, 7, number);
            tell(is_same(&found, &wanted) || (found.status == PB_FAILED && found.report.reason == PB_MEMORY), "request", number);
        }
    }
    closed();
    ((unsigned long *)total)[0] = runs;
    ((unsigned long *)total)[1] = wrong;
    return NULL;
}

static void read_text(const char *name)
{
    uint8_t *bytes = block_of(1 << 20, 1);
    FILE *file = fopen(name, "rb");
    size_t len;
    if (file == NULL) {
        perror(name);
        exit(2);
    }
    len = fread(bytes, 1, 1 << 20, file);
    fclose(file);
    /* Just as many bytes as there are, so that a tool sees a byte that is read past them. */
    texts[texts_len].bytes = block_of(len, 1);
    memcpy(texts[texts_len].bytes, bytes, len);
    texts[texts_len++].len = len;
    free(bytes);
}

int main(int count, char **words)
{
    unsigned long totals[THREADS][2], all = 0, bad = 0;
    pthread_t threads[THREADS];
    bool is_once = count > 1 && strcmp(words[1], "--once") == 0;
    int many = is_once ? 1 : THREADS;
    for (int k = 1 + is_once; k < count && texts_len < sizeof texts / sizeof *texts; k++)
        read_text(words[k]);
    for (int k = 0; k < many; k++)
        if (pthread_create(&threads[k], NULL, run, totals[k]) != 0)
            return 2;
    for (int k = 0; k < many; k++) {
        pthread_join(threads[k], NULL);
        all += totals[k][0];
        bad += totals[k][1];
    }
    for (size_t at = 0; at < texts_len; at++)
        free(texts[at].bytes);
    printf("%lu\n", all);
    return bad != 0;
}
