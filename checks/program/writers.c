/* Writes texts from arrays: writers [--once] TEXT..
**
** A text is a proof if its first byte is `p`, and else an instance. Each of its statements is read into arrays and written from them. The lines
** have to be those of pb_tidy(). Each statement is also written to rooms of all lengths, and with each request for memory refused in turn: then
** the result is PB_FAILED, nothing is written, and nothing that was allocated is left. Then each token is broken in several ways, and the index
** of that token has to be reported. Eight threads do all of it at the same time, or with --once one does. It prints how many runs there were. The
** status is 1 if one was wrong. */

#include <pthread.h>
#include <stdbool.h>
#include <stdint.h>
#include <stdio.h>
#include <stdlib.h>
#include <string.h>

#define PB_NO_RANDOM
#include "pb.h"

#define THREADS 8

/* The heap of the library, in place of the one in libpb.a. Request number `refused` of a thread is refused; 0 is no request. `live` counts
** the blocks that were not freed. */
struct answer {
    bool ok;
    unsigned char *p;
};

static _Thread_local unsigned long requests, refused, live, runs, wrong;
static unsigned char unused;

static struct answer answer_of(void *block)
{
    struct answer answer = {block != NULL, block != NULL ? block : &unused};
    return answer;
}

struct answer rattle_alloc(size_t size, size_t align)
{
    void *block = ++requests == refused ? NULL : malloc(size != 0 ? size : align);
    live += block != NULL;
    return answer_of(block);
}

struct answer rattle_realloc(unsigned char *p, size_t kept, size_t size, size_t align)
{
    (void)kept;
    return answer_of(++requests == refused ? NULL : realloc(p, size != 0 ? size : align));
}

void rattle_dealloc(unsigned char *p)
{
    live--;
    free(p);
}

static void tell(bool is_right, const char *what, size_t number)
{
    runs++;
    if (!is_right) {
        wrong++;
        fprintf(stderr, "%s %zu\n", what, number);
    }
}

/* A block of just this size that is not null. */
static void *block_of(size_t count, size_t size)
{
    void *block = malloc(count != 0 ? count * size : 1);
    if (block == NULL)
        exit(2);
    return block;
}

/* The names of a text. A name ends where the next one begins. */
struct names {
    uint8_t *bytes;
    uint64_t *starts;
    size_t len, bytes_len;
};

/* A statement in arrays. */
struct statement {
    uint32_t kind;
    uint8_t *codes, *text;
    uint64_t *names, *lows;
    int64_t *highs;
    size_t len, text_len;
};

static const pb_options_t options = PB_OPTIONS_FIXED;

/* The statement with its first `len` tokens. */
static uint8_t write_first(const struct statement *s, size_t len, const struct names *n, uint8_t *out, size_t room, size_t *out_len, size_t *at)
{
    return pb_write_statement(s->kind, s->codes, len, s->names, len, s->lows, len, s->highs, len, s->text, s->text_len, n->bytes, n->bytes_len,
        n->starts, n->len, &options, at, out, room, out_len);
}

static uint8_t write_whole(const struct statement *s, const struct names *n, uint8_t *out, size_t room, size_t *out_len, size_t *at)
{
    return write_first(s, s->len, n, out, room, out_len, at);
}

static bool is_named(uint8_t code)
{
    return (code >= PB_TOKEN_TERM && code <= PB_TOKEN_NEGATED_LITERAL) || code == PB_TOKEN_WEAKEN;
}

static bool has_number(uint8_t code)
{
    return code <= PB_TOKEN_NEGATED_TERM || (code >= PB_TOKEN_AT_LEAST && code <= PB_TOKEN_ID) || code == PB_TOKEN_MULTIPLY
        || code == PB_TOKEN_DIVIDE || code == PB_TOKEN_BOUND;
}

/* The statement is refused at a token, and nothing is written. */
static void refused_at(const struct statement *s, const struct names *n, size_t token, const char *what)
{
    uint8_t out[2] = {'#', '#'};
    size_t len = 9, at = 9999;
    uint8_t status = write_whole(s, n, out, 2, &len, &at);
    tell(status == PB_REFUSED && at == token && len == 0 && out[0] == '#' && out[1] == '#', what, token);
}

/* Each token broken in several ways. */
static void broken(struct statement *s, const struct names *n)
{
    for (size_t k = 0; k < s->len; k++) {
        uint8_t code = s->codes[k];
        uint64_t name = s->names[k], low = s->lows[k];
        int64_t high = s->highs[k];
        s->codes[k] = 0;
        refused_at(s, n, k, "code 0 at");
        s->codes[k] = 17;
        refused_at(s, n, k, "code 17 at");
        s->codes[k] = code;
        s->names[k] = is_named(code) ? n->len : 1;
        refused_at(s, n, k, "a wrong name at");
        s->names[k] = is_named(code) ? UINT64_MAX : UINT64_MAX - 1;
        refused_at(s, n, k, "a huge name at");
        s->names[k] = name;
        s->lows[k] = 0;
        s->highs[k] = INT64_MIN;
        refused_at(s, n, k, "a number of too many bits at");
        s->lows[k] = !has_number(code);
        s->highs[k] = 0;
        if (!has_number(code) || code == PB_TOKEN_ID || code == PB_TOKEN_MULTIPLY || code == PB_TOKEN_DIVIDE)
            refused_at(s, n, k, "0 or 1 at");
        s->lows[k] = low;
        s->highs[k] = high;
    }
}

/* Rooms of all lengths, and requests for memory that are refused. */
static void rooms(const struct statement *s, const struct names *n, const uint8_t *line, size_t line_len)
{
    unsigned long all;
    size_t len, at;
    for (size_t room = 0; room <= line_len + 1; room++) {
        size_t fits = room < line_len ? room : line_len;
        uint8_t *out = block_of(room + 1, 1);
        memset(out, '#', room + 1);
        tell(write_whole(s, n, out, room, &len, &at) == PB_OK && len == line_len && at == s->len && memcmp(out, line, fits) == 0
            && out[fits] == '#' && out[room] == '#', "a room of", room);
        free(out);
    }
    requests = 0;
    write_whole(s, n, &unused, 0, &len, &at);
    all = requests;
    for (refused = 1; refused <= all; refused++) {
        uint8_t out = '#';
        requests = 0;
        tell(write_whole(s, n, &out, 1, &len, &at) == PB_FAILED && len == 0 && at == s->len && out == '#' && live == 0, "request", refused);
    }
    refused = 0;
}

/* Lengths that differ, a kind that is none, options that are not allowed, and a statement with fewer tokens. */
static void misused(const struct statement *s, const struct names *n, const uint8_t *line, size_t line_len)
{
    static const pb_options_t bad = {0, 0, 0, 30};
    uint8_t *other = block_of(line_len, 1), out;
    size_t len, at, k = s->len;
    tell(pb_write_statement(s->kind, s->codes, k, s->names, k, s->lows, k, s->highs, k, s->text, s->text_len, n->bytes, n->bytes_len, n->starts,
        n->len, &bad, &at, &out, 0, &len) == PB_MISUSE && len == 0, "bad options", k);
    tell(pb_write_statement(5, s->codes, k, s->names, k, s->lows, k, s->highs, k, s->text, s->text_len, n->bytes, n->bytes_len, n->starts, n->len,
        &options, &at, &out, 0, &len) == PB_MISUSE && len == 0, "kind 5", k);
    if (k == 0) {
        free(other);
        return;
    }
    tell(pb_write_statement(s->kind, s->codes, k - 1, s->names, k, s->lows, k, s->highs, k, s->text, s->text_len, n->bytes, n->bytes_len, n->starts,
        n->len, &options, &at, &out, 0, &len) == PB_MISUSE && len == 0, "short codes", k);
    tell(pb_write_statement(s->kind, s->codes, k, s->names, k, s->lows, k, s->highs, k - 1, s->text, s->text_len, n->bytes, n->bytes_len, n->starts,
        n->len, &options, &at, &out, 0, &len) == PB_MISUSE && len == 0, "short numbers", k);
    if (write_first(s, k - 1, n, other, line_len, &len, &at) == PB_OK)
        tell(len < line_len || memcmp(other, line, line_len) != 0, "one token less", k);
    else
        tell(len == 0 && at <= k - 1, "one token less", k);
    free(other);
}

/* The statement of an event, in blocks of just its lengths. */
static struct statement statement_of(pb_reader_t *reader, const pb_event_t *event)
{
    size_t n = event->tokens, len;
    struct statement s = {event->kind, block_of(n, 1), block_of(event->bytes, 1), block_of(n, 8), block_of(n, 8), block_of(n, 8), n, event->bytes};
    tell(pb_reader_tokens(reader, s.codes, n, s.names, n, s.lows, n, s.highs, n) == PB_OK, "tokens", n);
    tell(pb_reader_bytes(reader, s.text, s.text_len, &len) == PB_OK && len == s.text_len, "the free text", s.text_len);
    return s;
}

static void free_statement(struct statement *s)
{
    free(s->codes), free(s->text), free(s->names), free(s->lows), free(s->highs);
}

/* All names that a reader has. */
static struct names names_of(pb_reader_t *reader)
{
    struct names n = {block_of(0, 1), block_of(0, 8), 0, 0};
    size_t len;
    while (pb_reader_name(reader, n.len, &unused, 0, &len) == PB_OK) {
        n.bytes = realloc(n.bytes, n.bytes_len + len + 1);
        n.starts = realloc(n.starts, (n.len + 1) * sizeof *n.starts);
        if (n.bytes == NULL || n.starts == NULL)
            exit(2);
        n.starts[n.len] = n.bytes_len;
        pb_reader_name(reader, n.len++, n.bytes + n.bytes_len, len, &len);
        n.bytes_len += len;
    }
    return n;
}

/* Writes a statement, and returns the length of its line at `out`. */
static size_t written(pb_reader_t *reader, const pb_event_t *event, uint8_t *out, size_t room)
{
    struct statement s = statement_of(reader, event);
    struct names n = names_of(reader);
    size_t len, at;
    /* What the reader has is not part of what a write leaves. */
    unsigned long held = live;
    live = 0;
    tell(write_whole(&s, &n, out, room, &len, &at) == PB_OK && len <= room && at == s.len, "a statement at", (size_t)event->offset);
    rooms(&s, &n, out, len);
    broken(&s, &n);
    misused(&s, &n, out, len);
    tell(live == 0, "blocks that are left:", live);
    live = held;
    free_statement(&s);
    free(n.bytes), free(n.starts);
    return len;
}

/* Compares the lines of all statements with what pb_tidy() writes. */
static void round_trip(const uint8_t *text, size_t len)
{
    size_t room = 4 * len + 4096, tidy_len, used, out_len = 0;
    uint8_t *tidy = block_of(room, 1), *out = block_of(room, 1), status;
    const uint8_t *piece = text;
    pb_reader_t reader = PB_READER_CLOSED;
    pb_report_t report;
    pb_event_t event;
    status = pb_reader_open(len > 0 && text[0] == 'p' ? PB_READS_PROOF : PB_READS_INSTANCE, &options, &reader, &report);
    do {
        status = pb_reader_feed(&reader, piece, len - (size_t)(piece - text), &used, &event, &report);
        piece += used;
        if (event.kind != PB_EVENT_NONE) {
            if (out_len > 0)
                out[out_len++] = '\n';
            out_len += written(&reader, &event, out + out_len, room - out_len);
        }
    } while (status == PB_OK && event.kind != PB_EVENT_NONE);
    if (status == PB_OK && pb_tidy(text, len, false, &options, tidy, room, &tidy_len) == PB_OK) {
        while (tidy_len > 0 && tidy[tidy_len - 1] == '\n')
            tidy_len--;
        tell(out_len == tidy_len && memcmp(out, tidy, out_len) == 0, "the lines of a text of length", len);
    }
    pb_reader_close(&reader);
    tell(live == 0, "blocks that are left:", live);
    free(tidy), free(out);
}

/* A statement of one kind with these tokens. Names are x1 and y2. */
static uint8_t made(uint32_t kind, const char *codes, const char *names, const int *numbers, const char *text, char *out, size_t *at)
{
    static const uint64_t starts[] = {0, 2};
    uint64_t its_names[8], lows[8];
    int64_t highs[8];
    size_t len = strlen(codes), out_len;
    uint8_t status;
    for (size_t k = 0; k < len; k++) {
        its_names[k] = (uint64_t)(names[k] - '0');
        lows[k] = (uint64_t)(int64_t)numbers[k];
        highs[k] = numbers[k] < 0 ? -1 : 0;
    }
    status = pb_write_statement(kind, (const uint8_t *)codes, len, its_names, len, lows, len, highs, len, (const uint8_t *)text, strlen(text),
        (const uint8_t *)"x1y2", 4, starts, 2, &options, at, (uint8_t *)out, 99, &out_len);
    out[out_len] = 0;
    return status;
}

/* Statements by hand: what is written, or the index of the token that is refused. */
static void by_hand(void)
{
    static const struct {
        uint32_t kind;
        const char *codes, *names;
        int numbers[8];
        const char *text, *line;
        size_t at;
    } rows[] = {
        {PB_EVENT_HEADER, "\7\7", "00", {3, 1}, " more", "* #variable= 3 #constraint= 1 more", 0},
        {PB_EVENT_HEADER, "\7\7", "00", {3, 1}, "more", NULL, 2},
        {PB_EVENT_HEADER, "\7", "0", {3}, "", NULL, 1},
        {PB_EVENT_HEADER, "\7\7\7", "000", {3, 1, 1}, "", NULL, 2},
        {PB_EVENT_HEADER, "\7\7", "00", {3, -1}, "", NULL, 1},
        {PB_EVENT_COMMENT, "", "", {0}, " a\tb", "* a\tb", 0},
        {PB_EVENT_COMMENT, "", "", {0}, "a\nb", NULL, 0},
        {PB_EVENT_COMMENT, "\1", "0", {1}, "", NULL, 0},
        {PB_EVENT_OBJECTIVE, "", "", {0}, "", "min: ;", 0},
        {PB_EVENT_OBJECTIVE, "\2\1", "01", {-2, 5}, "", "min: -2 ~x1 +5 y2 ;", 0},
        {PB_EVENT_OBJECTIVE, "\2\1\5", "010", {-2, 5, 0}, "", NULL, 2},
        {PB_EVENT_OBJECTIVE, "", "", {0}, "text", NULL, 0},
        {PB_EVENT_CONSTRAINT, "\1\2\6", "010", {1, -3, -2}, "", "+1 x1 -3 ~y2 = -2 ;", 0},
        {PB_EVENT_CONSTRAINT, "\5", "0", {0}, "", ">= 0 ;", 0},
        {PB_EVENT_CONSTRAINT, "\1\2", "01", {1, -3}, "", NULL, 2},
        {PB_EVENT_CONSTRAINT, "\1\5\2", "001", {1, 1, 1}, "", NULL, 1},
        {PB_EVENT_CONSTRAINT, "\1\5\5", "000", {1, 1, 1}, "", NULL, 2},
        {PB_EVENT_CONSTRAINT, "\1\5", "20", {1, 1}, "", NULL, 0},
        {PB_EVENT_PROOF, "", "", {0}, "", "pseudo-Boolean proof version 2.0", 0},
        {PB_EVENT_F, "", "", {0}, "", "f", 0},
        {PB_EVENT_F, "\7", "0", {2}, "", "f 2", 0},
        {PB_EVENT_F, "\7\7", "00", {2, 2}, "", NULL, 1},
        {PB_EVENT_POL, "\10\4\11\15\14\12\13", "0000000", {1, 0, 0, 0, 0, 2, 3}, "", "pol 1 ~x1 + x1 w s 2 * 3 d", 0},
        {PB_EVENT_POL, "\10\14\11", "000", {1, 0, 0}, "", NULL, 2},
        {PB_EVENT_POL, "\10\4\11\14\12\13\15", "0000001", {1, 0, 0, 0, 2, 3, 0}, "", "pol 1 ~x1 + s 2 * 3 d y2 w", 0},
        {PB_EVENT_POL, "\10\11", "00", {1, 0}, "", NULL, 1},
        {PB_EVENT_POL, "\10\10", "00", {1, 2}, "", NULL, 2},
        {PB_EVENT_POL, "", "", {0}, "", NULL, 0},
        {PB_EVENT_POL, "\10\1", "00", {1, 1}, "", NULL, 1},
        {PB_EVENT_RUP, "\1\5", "00", {1, 1}, "", "rup +1 x1 >= 1 ;", 0},
        {PB_EVENT_RUP, "\1\6", "00", {1, 1}, "", NULL, 1},
        {PB_EVENT_SOLI, "\3\4", "01", {0, 0}, "", "soli x1 ~y2", 0},
        {PB_EVENT_SOLX, "\3\4", "01", {0, 0}, "", "solx x1 ~y2", 0},
        {PB_EVENT_SOLX, "\3\1", "01", {0, 1}, "", NULL, 1},
        {PB_EVENT_DELETE, "\10\10", "00", {4, -1}, "", "del id 4 -1", 0},
        {PB_EVENT_DELETE, "", "", {0}, "", NULL, 0},
        {PB_EVENT_DELETE, "\10\10", "00", {4, 0}, "", NULL, 1},
        {PB_EVENT_OUTPUT, "", "", {0}, "", "output NONE", 0},
        {PB_EVENT_NO_CLAIM, "", "", {0}, "", "conclusion NONE", 0},
        {PB_EVENT_UNSAT, "", "", {0}, "", "conclusion UNSAT", 0},
        {PB_EVENT_UNSAT, "\10", "0", {-1}, "", "conclusion UNSAT : -1", 0},
        {PB_EVENT_UNSAT, "\10\10", "00", {-1, 2}, "", NULL, 1},
        {PB_EVENT_SAT, "", "", {0}, "", "conclusion SAT", 0},
        {PB_EVENT_SAT, "\20", "0", {0}, "", "conclusion SAT :", 0},
        {PB_EVENT_SAT, "\20\4", "00", {0, 0}, "", "conclusion SAT : ~x1", 0},
        {PB_EVENT_SAT, "\4", "0", {0}, "", NULL, 0},
        {PB_EVENT_BOUNDS, "\16\17", "00", {-7, 0}, "", "conclusion BOUNDS -7 INF", 0},
        {PB_EVENT_BOUNDS, "\16\10\16\20\3", "00000", {1, 5, 2, 0, 0}, "", "conclusion BOUNDS 1 : 5 2 : x1", 0},
        {PB_EVENT_BOUNDS, "\16\16\10", "000", {1, 2, 5}, "", NULL, 1},
        {PB_EVENT_BOUNDS, "\16", "0", {1}, "", NULL, 1},
        {PB_EVENT_END, "", "", {0}, "", "end pseudo-Boolean proof", 0},
        {PB_EVENT_END, "\11", "0", {0}, "", NULL, 0},
    };
    for (size_t k = 0; k < sizeof rows / sizeof *rows; k++) {
        char out[100];
        size_t at;
        uint8_t status = made(rows[k].kind, rows[k].codes, rows[k].names, rows[k].numbers, rows[k].text, out, &at);
        if (rows[k].line != NULL)
            tell(status == PB_OK && at == strlen(rows[k].codes) && strcmp(out, rows[k].line) == 0, "the statement of row", k);
        else
            tell(status == PB_REFUSED && at == rows[k].at && out[0] == 0, "the fault of row", k);
    }
}

/* Tables of names in which a name is none. */
static void names_by_hand(void)
{
    static const struct {
        const char *bytes;
        uint64_t starts[2];
        size_t len;
        bool is_right;
    } rows[] = {
        {"x1", {0}, 1, true},
        {"x1", {0, 0}, 2, false},
        {"x1x1", {2, 4}, 2, true},
        {"x1x1", {2, 1}, 2, false},
        {"x1", {0, 3}, 2, false},
        {"x1", {0, UINT64_MAX}, 2, false},
        {"x1", {3}, 1, false},
        {"x", {0}, 1, false},
        {"1x", {0}, 1, false},
        {"x 1", {0}, 1, false},
        {"x\n", {0}, 1, false},
        {"x\303\244", {0}, 1, false},
        {"x\377", {0}, 1, false},
        {"", {0}, 0, false},
    };
    static const uint8_t code = PB_TOKEN_LITERAL;
    static const uint64_t zero = 0;
    static const int64_t high = 0;
    for (size_t k = 0; k < sizeof rows / sizeof *rows; k++) {
        uint8_t out[9];
        size_t len, at;
        uint8_t status = pb_write_statement(PB_EVENT_SOLI, &code, 1, &zero, 1, &zero, 1, &high, 1, &unused, 0, (const uint8_t *)rows[k].bytes,
            strlen(rows[k].bytes), rows[k].starts, rows[k].len, &options, &at, out, 9, &len);
        if (rows[k].is_right)
            tell(status == PB_OK && len == 7 && memcmp(out, "soli x1", 7) == 0, "the names of row", k);
        else
            tell(status == PB_REFUSED && len == 0 && at == 0, "the names of row", k);
    }
}

/* The texts, which the threads share. */
static struct {
    uint8_t *bytes;
    size_t len;
} texts[64];

static size_t texts_len;

static void *run(void *total)
{
    by_hand();
    names_by_hand();
    for (size_t at = 0; at < texts_len; at++)
        round_trip(texts[at].bytes, texts[at].len);
    ((unsigned long *)total)[0] = runs;
    ((unsigned long *)total)[1] = wrong;
    return NULL;
}

static void read_text(const char *name)
{
    uint8_t *bytes = block_of(1 << 20, 1);
    FILE *file = fopen(name, "rb");
    size_t len;
    if (file == NULL) {
        perror(name);
        exit(2);
    }
    len = fread(bytes, 1, 1 << 20, file);
    fclose(file);
    /* Just as many bytes as there are, so that a tool sees a byte that is read past them. */
    texts[texts_len].bytes = block_of(len, 1);
    memcpy(texts[texts_len].bytes, bytes, len);
    texts[texts_len++].len = len;
    free(bytes);
}

int main(int count, char **words)
{
    unsigned long totals[THREADS][2], all = 0, bad = 0;
    pthread_t threads[THREADS];
    bool is_once = count > 1 && strcmp(words[1], "--once") == 0;
    int many = is_once ? 1 : THREADS;
    for (int k = 1 + is_once; k < count && texts_len < sizeof texts / sizeof *texts; k++)
        read_text(words[k]);
    for (int k = 0; k < many; k++)
        if (pthread_create(&threads[k], NULL, run, totals[k]) != 0)
            return 2;
    for (int k = 0; k < many; k++) {
        pthread_join(threads[k], NULL);
        all += totals[k][0];
        bad += totals[k][1];
    }
    for (size_t at = 0; at < texts_len; at++)
        free(texts[at].bytes);
    printf("%lu\n", all);
    return bad != 0;
}
